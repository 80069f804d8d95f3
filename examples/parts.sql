-- The parts of a small shop, and their prices.
CREATE TABLE PARTS (
  NUMBER SMALLINT NOT NULL PRIMARY KEY,
  NAME CHAR(16) NOT NULL,
  MATERIAL CHAR(8),
  PRICE NUMERIC(7,2),
  STOCK INTEGER
);
LOAD PARTS FROM 'examples/parts.csv';

SELECT NAME, PRICE FROM PARTS WHERE PRICE > 0.1;
SELECT NUMBER, NAME, STOCK FROM PARTS WHERE MATERIAL = 'Steel';
-- Where there is no price the comparison is unknown, and the row does not pass.
SELECT NAME, MATERIAL, PRICE FROM PARTS WHERE PRICE <= 0.05;
SELECT NAME, STOCK FROM PARTS;
-- A product has the digits behind the point that its factors have together.
SELECT NAME, STOCK * PRICE AS WORTH FROM PARTS WHERE STOCK * PRICE BETWEEN 1 AND 100 OR MATERIAL NOT LIKE '%e%';
