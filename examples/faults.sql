-- One fault of each kind that a statement has; the script goes on behind each.
CREATE TABLE T (A SMALLINT, B NUMERIC(5,2));
CREATE TABLE N (NAME CHAR(8));
CREATE TABLE K (A INTEGER NOT NULL UNIQUE, B CHAR(4) NOT NULL);
CREATE TABLE T (A INTEGER);                        -- E07: the name is taken
CREATE TABLE U (A INTEGER, A CHAR);                -- E07: a column's name stands twice
CREATE INDEX ON K (A);                             -- E07: a UNIQUE column has an index
LOAD U FROM 'examples/parts.csv';                  -- E08: no such table
SELECT A FROM U;                                   -- E08
CREATE INDEX ON K (C);                             -- E08: no such column
CREATE TABLE U (A NUMERIC(19));                    -- E09: a precision over 18
SET STATISTICS K ROWS 1 PAGES 0;                   -- E09: no pages
LOAD T FROM 'examples/faulty/count.csv';           -- E10: the second record has one field
LOAD T FROM 'examples/faulty/text.csv';            -- E11 42000: no number
LOAD T FROM 'examples/faulty/range.csv';           -- E11 22003: over 32767
LOAD N FROM 'examples/faulty/long.csv';            -- E11 22001: over 8 characters
LOAD K FROM 'examples/faulty/again.csv';           -- E12: 1 comes again
LOAD K FROM 'examples/faulty/null.csv';            -- E12: a null in a NOT NULL column
SELECT A FROM T WHERE B = 0.0000000000000000001;   -- E13: a scale over 18
SELECT C FROM T;                                   -- E14: no such column
SELECT A FROM T WHERE B = 'cheap';                 -- E15: a number against a text
SELECT A FROM T WHERE A + B;                       -- E16: no condition
SELECT A FROM T WHERE COUNT(*) > 1;                -- E17: a set function in WHERE
SELECT A, COUNT(*) FROM T GROUP BY B;              -- E18: not grouped by A
SELECT A FROM T ORDER BY 2;                        -- E19: one result column
SELECT A.A FROM T A, T B, T C, T D, T E, T F, T G, T H, T I, T J, T K, T L, T M, T N, T O; -- E20: 15 tables
SELECT A, A, A, A, A, A, A, A, A, A, A, A, A, A, A, A, A, A, A, A, A, A, A, A, A, A, A, A, A, A, A, A, A, A, A, A, A, A, A, A, A, A, A, A, A, A, A, A, A, A, A, A, A, A, A, A, A, A, A, A, A, A, A, A, A FROM T; -- E21: 65 items
SELECT (SELECT A FROM T) FROM T;                   -- E21: a subquery outside WHERE
LOAD T FROM 'examples/faulty/none.csv';            -- E22: no such file
SELECT A, B FROM T;                                -- nothing was loaded
