"""How an object is refused."""


class Refused(Exception):
    """An object that no unit is made of. Its text is the reason, in one line once it is printed."""


class NoRoom(Refused):
    """The program takes more slots, or more bytes of a frame, than there are: less code may have room."""
