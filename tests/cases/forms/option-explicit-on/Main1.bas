Option Explicit On
