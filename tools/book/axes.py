"""From the axes of DE405 to the mean equator and equinox of 1950.0."""

# JPL's own table from DE118 (1950.0) to DE200 (2000.0), known by E. M. Standish, Astronomy and Astrophysics 114 (1982), 297. We did not
# have the paper. These digits agree with those used for data/books to 6·10^-13. The transpose goes back. DE405 uses the ICRF, which
# differs slightly from the axes of DE200; this is neglected, as in data/books.
TO_2000 = (
    (0.9999256791774783, -0.0111815116768724, -0.0048590038154553),
    (0.0111815116959975, 0.9999374845751042, -0.0000271625775175),
    (0.0048590037714450, -0.0000271704492210, 0.9999881946023742),
)


def to_1950(vector):
    return [sum(row[i] * component for row, component in zip(TO_2000, vector)) for i in range(3)]
