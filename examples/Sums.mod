MODULE Sums;
VAR
  width, height: INTEGER;
  area: INTEGER;
VAR
  perimeter: INTEGER;
BEGIN
  width := 12;
  height := width - 5;
  area := width * height;
  perimeter := width + height;
  perimeter := perimeter * 2
END Sums.
