IMPLEMENTATION MODULE Symbols;

TYPE
  Order = (Before, Same, Behind);
  Tree = POINTER TO Node;
  Node = RECORD
    name: Name;
    number: CARDINAL;
    left, right: Tree
  END;

VAR root: Tree;

PROCEDURE Compare(VAR a, b: Name): Order;
VAR k: CARDINAL;
BEGIN
  FOR k := 0 TO Longest DO
    IF a[k] < b[k] THEN
      RETURN Before
    ELSIF a[k] > b[k] THEN
      RETURN Behind
    ELSIF a[k] = 0C THEN
      RETURN Same
    END
  END;
  RETURN Same
END Compare;

PROCEDURE CountIn(VAR tree: Tree; VAR name: Name);
BEGIN
  IF tree = NIL THEN
    NEW(tree);
    tree^.name := name;
    tree^.number := 1;
    tree^.left := NIL;
    tree^.right := NIL
  ELSE
    CASE Compare(name, tree^.name) OF
      Before: CountIn(tree^.left, name)
    | Same: INC(tree^.number)
    | Behind: CountIn(tree^.right, name)
    END
  END
END CountIn;

PROCEDURE Count(name: Name);
BEGIN
  CountIn(root, name)
END Count;

PROCEDURE VisitIn(tree: Tree; visit: Visit);
BEGIN
  IF tree # NIL THEN
    VisitIn(tree^.left, visit);
    visit(tree^.name, tree^.number);
    VisitIn(tree^.right, visit)
  END
END VisitIn;

PROCEDURE VisitAll(visit: Visit);
BEGIN
  VisitIn(root, visit)
END VisitAll;

BEGIN
  root := NIL
END Symbols.
