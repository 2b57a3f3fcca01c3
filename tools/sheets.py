"""An exposure sheet: columns from back to front over rows that count from 1."""

# What stands in a cell that shows nothing. A row of a column without an entry holds what was there before.
EMPTY = None
MOST_ROWS, MOST_COLUMNS = 9999, 1024


class Column:
    """`entries` gives for a row the name of a drawing, or EMPTY; before the first entry a column is empty."""

    def __init__(self, name, entries):
        self.name = name
        self.entries = entries


class Sheet:
    def __init__(self, rows, columns):
        if not 1 <= rows <= MOST_ROWS:
            raise ValueError("the sheet has %d rows, and a scene has 1 to %d" % (rows, MOST_ROWS))
        if not 1 <= len(columns) <= MOST_COLUMNS:
            raise ValueError("the sheet has %d columns, and a scene has 1 to %d" % (len(columns), MOST_COLUMNS))
        self.rows = rows
        self.columns = columns


def exposures(column, rows):
    """The cells of a column: its first row, its last row and the drawing that is held."""
    cells = []
    begins = sorted(row for row in column.entries if row <= rows)
    for row, after in zip(begins, begins[1:] + [rows + 1]):
        drawing = column.entries[row]
        if drawing is EMPTY:
            continue
        if cells and cells[-1][1] == row - 1 and cells[-1][2] == drawing:
            row = cells.pop()[0]
        cells.append((row, after - 1, drawing))
    return cells
