MODULE Reverse;
(* Prints the numbers of its input, the last one first. *)

FROM InOut IMPORT Done, ReadInt, WriteInt, WriteLn;
FROM Stacks IMPORT Create, IsEmpty, Pop, Push, Stack;

VAR
  stack: Stack;
  number: INTEGER;

BEGIN
  Create(stack);
  ReadInt(number);
  WHILE Done DO
    Push(stack, number);
    ReadInt(number)
  END;
  WHILE NOT IsEmpty(stack) DO
    Pop(stack, number);
    WriteInt(number, 1);
    WriteLn
  END
END Reverse.
