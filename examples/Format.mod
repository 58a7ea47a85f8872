MODULE Format;
(* Fills lines with the words of its input; an empty line stays. *)

FROM InOut IMPORT Done, EOL, Read, WriteLn;
FROM Lines IMPORT EndLine, PutWord;

CONST Longest = 20;

VAR
  ch: CHAR;
  word: ARRAY [0 .. Longest] OF CHAR;
  length, breaks: CARDINAL;

PROCEDURE IsBlank(): BOOLEAN;
BEGIN
  RETURN (ch = " ") OR (ch = EOL)
END IsBlank;

BEGIN
  Read(ch);
  WHILE Done DO
    breaks := 0;
    WHILE Done & IsBlank() DO
      IF ch = EOL THEN INC(breaks) END;
      Read(ch)
    END;
    IF breaks > 1 THEN
      EndLine;
      WriteLn
    END;
    length := 0;
    WHILE Done & NOT IsBlank() DO
      IF length < Longest THEN
        word[length] := ch;
        INC(length)
      END;
      Read(ch)
    END;
    word[length] := 0C;
    IF length > 0 THEN PutWord(word) END
  END;
  EndLine
END Format.
