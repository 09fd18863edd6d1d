-- One query for each letter. {c} is the column c0 to c3, {b} and {a} are the rows before and after.
-- Each gives a key's results in the order of its rows. Nulls are respected, which is SQLite's rule.

-- n: row number from 1
SELECT ROW_NUMBER() OVER (PARTITION BY key ORDER BY i) FROM cells WHERE key = ? ORDER BY i;

-- r: sum of the present cells from the key's first row to this one
SELECT SUM({c}) OVER (PARTITION BY key ORDER BY i ROWS BETWEEN UNBOUNDED PRECEDING AND CURRENT ROW) FROM cells WHERE key = ? ORDER BY i;

-- k: rows in the frame
SELECT COUNT(*) OVER (PARTITION BY key ORDER BY i ROWS BETWEEN {b} PRECEDING AND {a} FOLLOWING) FROM cells WHERE key = ? ORDER BY i;

-- c: present cells in the frame
SELECT COUNT({c}) OVER (PARTITION BY key ORDER BY i ROWS BETWEEN {b} PRECEDING AND {a} FOLLOWING) FROM cells WHERE key = ? ORDER BY i;

-- s: sum of the present cells in the frame
SELECT SUM({c}) OVER (PARTITION BY key ORDER BY i ROWS BETWEEN {b} PRECEDING AND {a} FOLLOWING) FROM cells WHERE key = ? ORDER BY i;

-- l: lowest of the present cells in the frame
SELECT MIN({c}) OVER (PARTITION BY key ORDER BY i ROWS BETWEEN {b} PRECEDING AND {a} FOLLOWING) FROM cells WHERE key = ? ORDER BY i;

-- h: highest of the present cells in the frame
SELECT MAX({c}) OVER (PARTITION BY key ORDER BY i ROWS BETWEEN {b} PRECEDING AND {a} FOLLOWING) FROM cells WHERE key = ? ORDER BY i;

-- f: first cell of the frame
SELECT FIRST_VALUE({c}) OVER (PARTITION BY key ORDER BY i ROWS BETWEEN {b} PRECEDING AND {a} FOLLOWING) FROM cells WHERE key = ? ORDER BY i;

-- t: last cell of the frame
SELECT LAST_VALUE({c}) OVER (PARTITION BY key ORDER BY i ROWS BETWEEN {b} PRECEDING AND {a} FOLLOWING) FROM cells WHERE key = ? ORDER BY i;

-- g: the cell {b} rows earlier
SELECT LAG({c}, {b}) OVER (PARTITION BY key ORDER BY i) FROM cells WHERE key = ? ORDER BY i;

-- d: the cell {a} rows later
SELECT LEAD({c}, {a}) OVER (PARTITION BY key ORDER BY i) FROM cells WHERE key = ? ORDER BY i;

-- a: mean of the present cells in the frame, the fraction dropped toward zero by integer division
SELECT SUM({c}) OVER (PARTITION BY key ORDER BY i ROWS BETWEEN {b} PRECEDING AND {a} FOLLOWING) / COUNT({c}) OVER (PARTITION BY key ORDER BY i ROWS BETWEEN {b} PRECEDING AND {a} FOLLOWING) FROM cells WHERE key = ? ORDER BY i;
