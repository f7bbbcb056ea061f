
Sub Sub






s = "abc
