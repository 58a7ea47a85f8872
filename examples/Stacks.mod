IMPLEMENTATION MODULE Stacks;

TYPE
  Stack = POINTER TO Node;
  Node = RECORD
    number: INTEGER;
    below: Stack
  END;

PROCEDURE Create(VAR stack: Stack);
BEGIN
  stack := NIL
END Create;

PROCEDURE Push(VAR stack: Stack; number: INTEGER);
VAR node: Stack;
BEGIN
  NEW(node);
  node^.number := number;
  node^.below := stack;
  stack := node
END Push;

PROCEDURE Pop(VAR stack: Stack; VAR number: INTEGER);
BEGIN
  number := stack^.number;
  stack := stack^.below
END Pop;

PROCEDURE IsEmpty(stack: Stack): BOOLEAN;
BEGIN
  RETURN stack = NIL
END IsEmpty;

END Stacks.
