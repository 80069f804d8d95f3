LOAD T FROM 'parts.csv;
