MODULE Calculator;
(* Reads expressions, one a line, and prints what each comes to. An empty line, or the end of the input, ends it. *)

FROM InOut IMPORT EOL, Read, WriteInt, WriteLn, WriteString;

VAR
  ch: CHAR;   (* the next character that isn't a blank; 0C at the end of the input *)
  wrong: BOOLEAN;
  value: INTEGER;

PROCEDURE Next;
BEGIN
  REPEAT Read(ch) UNTIL ch # " "
END Next;

PROCEDURE IsDigit(): BOOLEAN;
BEGIN
  RETURN (ch >= "0") & (ch <= "9")
END IsDigit;

PROCEDURE Number(): INTEGER;
VAR n: INTEGER;
BEGIN
  n := 0;
  WHILE IsDigit() DO
    n := 10 * n + VAL(INTEGER, ORD(ch) - ORD("0"));
    Read(ch)
  END;
  IF ch = " " THEN Next END;
  RETURN n
END Number;

PROCEDURE Factor(): INTEGER;
VAR n: INTEGER;
BEGIN
  n := 0;
  IF ch = "-" THEN
    Next;
    n := -Factor()
  ELSIF ch = "(" THEN
    Next;
    n := Sum();
    IF ch = ")" THEN Next ELSE wrong := TRUE END
  ELSIF IsDigit() THEN
    n := Number()
  ELSE
    wrong := TRUE
  END;
  RETURN n
END Factor;

PROCEDURE Product(): INTEGER;
VAR n, m: INTEGER; operator: CHAR;
BEGIN
  n := Factor();
  WHILE (ch = "*") OR (ch = "/") DO
    operator := ch;
    Next;
    m := Factor();
    IF operator = "*" THEN
      n := n * m
    ELSIF m > 0 THEN
      n := n DIV m
    ELSE
      wrong := TRUE
    END
  END;
  RETURN n
END Product;

PROCEDURE Sum(): INTEGER;
VAR n: INTEGER; operator: CHAR;
BEGIN
  n := Product();
  WHILE (ch = "+") OR (ch = "-") DO
    operator := ch;
    Next;
    IF operator = "+" THEN n := n + Product() ELSE n := n - Product() END
  END;
  RETURN n
END Sum;

BEGIN
  Next;
  WHILE (ch # 0C) & (ch # EOL) DO
    wrong := FALSE;
    value := Sum();
    WHILE (ch # 0C) & (ch # EOL) DO wrong := TRUE; Read(ch) END;
    IF wrong THEN WriteString("what?") ELSE WriteInt(value, 1) END;
    WriteLn;
    Next
  END
END Calculator.
