MODULE Words;
(* Counts how often each word comes in its input. *)

IMPORT Symbols;
FROM InOut IMPORT Done, Read, Write, WriteCard, WriteLn;

VAR
  ch: CHAR;
  word: Symbols.Name;
  length: CARDINAL;

PROCEDURE IsLetter(): BOOLEAN;
BEGIN
  RETURN Done & (CAP(ch) >= "A") & (CAP(ch) <= "Z")
END IsLetter;

PROCEDURE WriteWord(name: Symbols.Name; number: CARDINAL);
VAR k: CARDINAL;
BEGIN
  WriteCard(number, 3);
  Write(" ");
  k := 0;
  WHILE (k <= Symbols.Longest) & (name[k] # 0C) DO
    Write(name[k]);
    INC(k)
  END;
  WriteLn
END WriteWord;

BEGIN
  Read(ch);
  WHILE Done DO
    length := 0;
    WHILE IsLetter() DO
      IF length <= Symbols.Longest THEN
        word[length] := ch;
        INC(length)
      END;
      Read(ch)
    END;
    IF length > 0 THEN
      IF length <= Symbols.Longest THEN word[length] := 0C END;
      Symbols.Count(word)
    ELSE
      Read(ch)
    END
  END;
  Symbols.VisitAll(WriteWord)
END Words.
