"""Pages for a browser, each in one file that needs no other and no network."""
import html

from .escapes import escaped

PAGE = """<!DOCTYPE html>
<html lang="en">
<head>
<meta charset="utf-8">
<meta name="viewport" content="width=device-width">{again}
<title>{title}</title>
<style>
body {{ font: 15px sans-serif; margin: 1.5em; color: #111; background: #fff }}
table {{ border-collapse: collapse }} th, td {{ border: 1px solid #bbb; padding: .3em .6em; text-align: left; vertical-align: top }}
th {{ background: #eee }} small {{ color: #555 }}
{sheet}</style>
</head>
<body>
<h1>{title}</h1>
{body}
</body>
</html>
"""


def page(title: str, body: str, sheet: str = "", seconds: int | None = None) -> str:
    """A page with this body. With a number of seconds a browser reads it again when they are over."""
    again = f'\n<meta http-equiv="refresh" content="{seconds}">' if seconds else ""
    return PAGE.format(title=html.escape(escaped(title)), body=body, sheet=sheet.lstrip("\n"), again=again)
