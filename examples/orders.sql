-- Who orders which parts: rows of several tables that belong together.
CREATE TABLE PARTS (
  NUMBER SMALLINT NOT NULL PRIMARY KEY,
  NAME CHAR(16) NOT NULL,
  MATERIAL CHAR(8),
  PRICE NUMERIC(7,2),
  STOCK INTEGER
);
CREATE TABLE ORDERS (CUSTOMER CHAR(8), PART SMALLINT, PIECES INTEGER);
CREATE INDEX ON ORDERS (PART);
LOAD PARTS FROM 'examples/parts.csv';
LOAD ORDERS FROM 'examples/orders.csv';

-- What an order comes to.
SELECT CUSTOMER, NAME, PIECES * PRICE AS AMOUNT FROM ORDERS, PARTS WHERE PART = NUMBER AND CUSTOMER = 'Olsen';
-- More is ordered than there is; where that is not known the comparison is unknown.
SELECT CUSTOMER, NAME, STOCK FROM PARTS, ORDERS WHERE NUMBER = PART AND PIECES > STOCK;
-- Two customers of one part: the orders stand there twice, as A and as B.
SELECT A.CUSTOMER, B.CUSTOMER, NAME FROM ORDERS A, ORDERS B, PARTS
  WHERE A.PART = B.PART AND A.PART = NUMBER AND A.CUSTOMER < B.CUSTOMER;
