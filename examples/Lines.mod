IMPLEMENTATION MODULE Lines;

FROM InOut IMPORT Write, WriteLn, WriteString;

VAR used: CARDINAL;   (* how many characters stand on the line *)

PROCEDURE LengthOf(word: ARRAY OF CHAR): CARDINAL;
VAR k: CARDINAL;
BEGIN
  k := 0;
  WHILE (k <= HIGH(word)) & (word[k] # 0C) DO INC(k) END;
  RETURN k
END LengthOf;

PROCEDURE PutWord(word: ARRAY OF CHAR);
VAR length: CARDINAL;
BEGIN
  length := LengthOf(word);
  IF used + 1 + length > Width THEN EndLine END;
  IF used > 0 THEN
    Write(" ");
    INC(used)
  END;
  WriteString(word);
  INC(used, length)
END PutWord;

PROCEDURE EndLine;
BEGIN
  IF used > 0 THEN
    WriteLn;
    used := 0
  END
END EndLine;

BEGIN
  used := 0
END Lines.
