"""How a socket of a farm is opened by those who use it."""

from __future__ import annotations

import os
import socket

from .folder import Refused, no_right, no_socket, socket_path

# The statuses of `connect`: a line was wrong, refused or not answered; and there is no farm, or it has ended the connection.
REFUSED, NO_FARM = 1, 3


def opened(folder: str, name: str) -> socket.socket:
    """A connection with the socket of this name."""
    stream = socket.socket(socket.AF_UNIX, socket.SOCK_STREAM)
    try:
        stream.connect(socket_path(os.path.relpath(folder), name))
        return stream
    except FileNotFoundError:
        told = no_socket(folder, name)
    except NotADirectoryError:
        told = f"{folder} is no folder: give the folder of the farm"
    except ConnectionRefusedError:
        told = f"nobody listens in {folder}, so the farm isn't up: start serve there"
    except PermissionError:
        told = no_right(folder, name)
    except BaseException:
        stream.close()
        raise
    stream.close()
    raise Refused(told)
