MODULE Faulty;
VAR
  width, height, width: INTEGER;
  CARDINAL: INTEGER;
BEGIN
  area := width * height
END Fault.
