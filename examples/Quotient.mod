MODULE Quotient;
(* Divides by a variable that nothing has set: every cell begins as 0. *)
VAR x, y: CARDINAL;
BEGIN
  x := 7;
  x := x DIV y
END Quotient.
