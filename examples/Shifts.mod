MODULE Shifts;
(* Who works on which days: sets of an enumeration. *)

FROM InOut IMPORT WriteLn, WriteString;

TYPE
  Day = (Monday, Tuesday, Wednesday, Thursday, Friday, Saturday, Sunday);
  Days = SET OF Day;

VAR ann, bob: Days;

PROCEDURE WriteDay(day: Day);
BEGIN
  CASE day OF
    Monday: WriteString("Monday")
  | Tuesday: WriteString("Tuesday")
  | Wednesday: WriteString("Wednesday")
  | Thursday: WriteString("Thursday")
  | Friday: WriteString("Friday")
  | Saturday, Sunday: WriteString("weekend")
  END
END WriteDay;

PROCEDURE WriteDays(title: ARRAY OF CHAR; days: Days);
VAR day: Day;
BEGIN
  WriteString(title);
  FOR day := Monday TO Sunday DO
    IF day IN days THEN
      WriteString(" ");
      WriteDay(day)
    END
  END;
  WriteLn
END WriteDays;

BEGIN
  ann := Days{Monday .. Thursday};
  bob := Days{Wednesday .. Saturday};
  INCL(ann, Sunday);
  EXCL(bob, Thursday);
  WriteDays("both:", ann * bob);
  WriteDays("one of them:", ann / bob);
  WriteDays("nobody:", Days{Monday .. Sunday} - (ann + bob))
END Shifts.
