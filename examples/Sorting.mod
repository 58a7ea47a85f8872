MODULE Sorting;
(* Sorts up to 100 numbers of its input. *)

FROM InOut IMPORT Done, ReadInt, WriteInt, WriteLn;

CONST Most = 100;

VAR
  numbers: ARRAY [0 .. Most - 1] OF INTEGER;
  number: INTEGER;
  count, k: CARDINAL;

PROCEDURE Swap(VAR x, y: INTEGER);
VAR old: INTEGER;
BEGIN
  old := x;
  x := y;
  y := old
END Swap;

(* Sorts the numbers from the low place on, up to the one before the high place. *)
PROCEDURE Sort(VAR a: ARRAY OF INTEGER; low, high: CARDINAL);
VAR last, next: CARDINAL;
BEGIN
  IF high - low < 2 THEN RETURN END;
  last := low;
  FOR next := low + 1 TO high - 1 DO
    IF a[next] < a[low] THEN
      INC(last);
      Swap(a[last], a[next])
    END
  END;
  Swap(a[low], a[last]);
  Sort(a, low, last);
  Sort(a, last + 1, high)
END Sort;

BEGIN
  count := 0;
  ReadInt(number);
  WHILE Done & (count < Most) DO
    numbers[count] := number;
    INC(count);
    ReadInt(number)
  END;
  Sort(numbers, 0, count);
  FOR k := 1 TO count DO WriteInt(numbers[k - 1], 6) END;
  WriteLn
END Sorting.
