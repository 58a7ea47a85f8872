MODULE Strip;
(* Copies its input without the comments in braces. In a quotation a brace is a character like any other. *)

FROM InOut IMPORT Done, Read, Write;

TYPE State = (Text, Comment, Quotation);

VAR
  state: State;
  ch: CHAR;

BEGIN
  state := Text;
  Read(ch);
  WHILE Done DO
    CASE state OF
      Text:
        IF ch = "{" THEN
          state := Comment
        ELSE
          IF ch = "'" THEN state := Quotation END;
          Write(ch)
        END
    | Comment:
        IF ch = "}" THEN state := Text END
    | Quotation:
        IF ch = "'" THEN state := Text END;
        Write(ch)
    END;
    Read(ch)
  END
END Strip.
