Option Compare Text
Option Compare Binary
Option Base 0
DefStr S, T-V
DefBool A-Z
DefDate D
DefObj O: DefVar P
