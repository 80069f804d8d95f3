-- What is told beside answers: products, repeated subqueries, tables without rows, statistics that were set.
CREATE TABLE T (K INTEGER, V NUMERIC(9,2), C CHAR(6));
LOAD T FROM 'rows.csv';
SELECT COUNT(*) FROM T A, T B WHERE EXISTS (SELECT * FROM T C, T D WHERE C.K = A.K);
CREATE TABLE E (K INTEGER);
SELECT * FROM E;
SELECT T.K FROM T, E WHERE T.K = E.K;
SET STATISTICS T ROWS 0 PAGES 1;
EXPLAIN SELECT A.K FROM T A, T B;
