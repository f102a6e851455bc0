-- The aggregate: one run for each group.
SET geyserpan.max_turns = 20000000;
SELECT geyserpan_fold(image, g || ';' ORDER BY g) FROM program, generate_series(1, 9) g WHERE name = 'copy';
SELECT g % 3 AS rest, geyserpan_fold(image, g || ';', 16000020 ORDER BY g)
    FROM program, generate_series(1, 9) g WHERE name = 'copy' GROUP BY rest ORDER BY rest;
SET enable_sort = off;
SELECT count(*), sum(length(told)) FROM (SELECT g % 1000, geyserpan_fold(image, 'x') AS told
    FROM program, generate_series(1, 10000) g WHERE name = 'copy' GROUP BY 1) each;
RESET enable_sort;
-- what a program doesn't read any more is passed over; rows that are null are, too
SELECT geyserpan_fold(image, g::text ORDER BY g) FROM program, generate_series(1, 9) g WHERE name = 'next';
SELECT geyserpan_fold(image, nullif(g, 2)::text ORDER BY g) FROM program, generate_series(1, 3) g WHERE name = 'copy';
-- a group without rows is null, and one with the exit word 1, too
SELECT geyserpan_fold(image, 'x') IS NULL AS no_rows FROM program WHERE name = 'none';
SELECT geyserpan_fold(image, '1') IS NULL AS one, geyserpan_fold(image, '0') = '' AS zero
    FROM program WHERE name = 'word';
-- the image, and the turns, are those of a group
SELECT geyserpan_fold(image, 'HAL') FROM program WHERE name IN ('next', 'copy');
\echo :SQLSTATE
SELECT geyserpan_fold(image, 'HAL', 16000020 + g) FROM program, generate_series(1, 2) g WHERE name = 'copy';
\echo :SQLSTATE
SELECT geyserpan_fold(NULL::bytea, 'HAL');
\echo :SQLSTATE
SELECT geyserpan_fold(image, 'HAL', NULL) FROM program WHERE name = 'copy';
\echo :SQLSTATE
SELECT geyserpan_fold(image, 'HAL', -1) FROM program WHERE name = 'copy';
\echo :SQLSTATE
SELECT geyserpan_fold(image, 'HAL') OVER (ORDER BY name) FROM program WHERE name = 'copy';
\echo :SQLSTATE
SELECT geyserpan_fold(image, chr(127) || 'AB') FROM program WHERE name = 'next';
\echo :SQLSTATE
RESET geyserpan.max_turns;
SELECT geyserpan_fold(image, 'HAL') FROM program WHERE name = 'copy';
\echo :SQLSTATE
