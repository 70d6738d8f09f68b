NAME m1
ROWS
 N cost
 L cap
COLUMNS
 M 'MARKER' 'INTORG'
 x cost -3 cap 0.5
 y cost -2 cap 1
 M 'MARKER' 'INTEND'
RHS
 rhs cap 4
BOUNDS
 UP b x 3
 UP b y 3
ENDATA
