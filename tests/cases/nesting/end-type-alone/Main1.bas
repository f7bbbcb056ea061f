End Type
