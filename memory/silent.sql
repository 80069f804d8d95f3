-- What is told of queries that hardly mean what they say, of files, and of tables that were refused.
CREATE TABLE N (NAME CHAR(6));
LOAD N FROM 'heading.csv';
LOAD N FROM 'heading.csv';
CREATE TABLE C (CLUB CHAR(3));
SELECT NAME FROM N WHERE NAME = 'Maximilian' AND NAME LIKE 'A_';
SELECT NAME FROM N WHERE NAME IN (SELECT NAME FROM C) AND NOT EXISTS (SELECT CLUB FROM C WHERE CLUB = NAME);
CREATE TABLE X (A INTEGER, A INTEGER);
SELECT A FROM X;
