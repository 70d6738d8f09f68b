"""A model at the limits: 1,000 columns from 0 to 100, 1,000 rows, 100,000 entries."""

COLUMNS, ROWS, PER_COLUMN = 1000, 1000, 100


def write_model(path, rows):
    """Writes the model with the sense and the right-hand side of each row; None stands for no line of RHS."""
    with open(path, "w") as out:
        out.write("NAME limits\nROWS\n N cost\n")
        for i, (sense, _) in enumerate(rows):
            out.write(f" {sense} row{i}\n")
        out.write("COLUMNS\n    MARKER                 'MARKER'                 'INTORG'\n")
        for j in range(COLUMNS):
            places = sorted((j * 37 + k * 10 + j // 10) % ROWS for k in range(PER_COLUMN))
            entries = [("cost", 1 + j % 100)] + [(f"row{i}", 1 + (i + j) % 1000) for i in places]
            for first, second in zip(entries[0::2], entries[1::2] + [None]):
                line = f"    column{j:<5} {first[0]:<8} {first[1]:>12}"
                if second is not None:
                    line += f" {second[0]:<8} {second[1]:>12}"
                out.write(line + "\n")
        out.write("    MARKER                 'MARKER'                 'INTEND'\nRHS\n")
        for i, (_, rhs) in enumerate(rows):
            if rhs is not None:
                out.write(f"    rhs       {f'row{i}':<8} {rhs}\n")
        out.write("BOUNDS\n")
        for j in range(COLUMNS):
            out.write(f" UP bnd       column{j:<5} {100}\n")
        out.write("ENDATA\n")
