Sub Main()
    Debug.Print "a": REM behind a colon
    Rem: a colon behind it
    Debug.Print "b" 'an apostrophe ' and another
    Debug.Print "it's" 'a text before it
    rem
End Sub
