"""The front end of the occam compiler: from a text to its core, which the proved compiler takes as a unit of JSON.

    words -> reader (a tree) -> names (a core) -> unit, core_text, program_warnings

Standard library alone; nothing is imported before it is needed.
"""
