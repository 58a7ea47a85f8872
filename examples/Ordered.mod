MODULE Ordered;
(* Puts the numbers of its input into a list in order, each where it belongs, and prints the list. *)

FROM InOut IMPORT Done, ReadInt, WriteInt, WriteLn;

TYPE
  List = POINTER TO Node;
  Node = RECORD
    number: INTEGER;
    next: List
  END;

VAR
  list: List;
  number: INTEGER;

PROCEDURE Insert(VAR list: List; number: INTEGER);
VAR node: List;
BEGIN
  IF (list = NIL) OR (number < list^.number) THEN
    NEW(node);
    node^.number := number;
    node^.next := list;
    list := node
  ELSE
    Insert(list^.next, number)
  END
END Insert;

BEGIN
  list := NIL;
  ReadInt(number);
  WHILE Done DO
    Insert(list, number);
    ReadInt(number)
  END;
  WHILE list # NIL DO
    WriteInt(list^.number, 1);
    WriteLn;
    list := list^.next
  END
END Ordered.
