"""Files of strangers: pairs and proof texts of any size that try to cost a program more than in proportion to their bytes.

    make(shape, size, folder)   writes s.mm0 and b.mmb, or for a text s.mmu
    SHAPES                      each shape's function, by its name; its docstring says what it is and what it tried to make dear
    ROWS                        what is measured of each, and what is expected of it (expected.py)
"""
from .command import SHAPES, make
from .expected import ROWS

__all__ = ["ROWS", "SHAPES", "make"]
