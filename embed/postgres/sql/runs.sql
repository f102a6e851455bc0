-- Runs: outputs, exit words, and what a run tells.
SELECT geyserpan_run(image, 'HAL') FROM program WHERE name = 'next';
SELECT geyserpan_run(image, '\x000102ff'::bytea) FROM program WHERE name = 'next';
SELECT name, (geyserpan_report(image, 'HAL'::bytea)).* FROM program WHERE name IN ('next', 'broken') ORDER BY name;
-- what isn't text isn't given as text
SELECT geyserpan_run(image, E'\x7f\x7f\x7f') FROM program WHERE name = 'next';
\echo :SQLSTATE
-- 0 is true, 1 is false, and all else is null
SELECT c, geyserpan_match(image, c) FROM program, unnest(ARRAY['0', '1', '2', '9', '/', '']) c WHERE name = 'word';
SELECT c, geyserpan_match(image, c::bytea) FROM program, unnest(ARRAY['0', '1', '2']) c WHERE name = 'word';
SELECT geyserpan_run(image, '0') = '' AS zero, geyserpan_run(image, '1') IS NULL AS one
    FROM program WHERE name = 'word';
SELECT geyserpan_run(image, '') IS NULL AS broken FROM program WHERE name = 'broken';
SELECT geyserpan_match(image, '') IS NULL AS broken FROM program WHERE name = 'broken';
-- null is null, in each place
SELECT geyserpan_run(NULL, 'HAL') IS NULL AS image, geyserpan_run(image, NULL::text) IS NULL AS input,
       geyserpan_run(image, 'HAL', NULL) IS NULL AS turns FROM program WHERE name = 'next';
-- each row has its own image, also at one place of a function that is called again and again
SELECT name, geyserpan_run(image, 'HAL') FROM program WHERE name IN ('next', 'word') ORDER BY name;
SET geyserpan.max_turns = 20000000;
SELECT name, geyserpan_run(image, 'HAL') FROM program WHERE name IN ('next', 'copy') ORDER BY name;
DO $$
DECLARE row program; told text;
BEGIN
    FOR row IN SELECT * FROM program WHERE name IN ('copy', 'next') ORDER BY name LOOP
        told := geyserpan_run(row.image, 'HAL');
        RAISE NOTICE '%: %', row.name, told;
    END LOOP;
END $$;
-- lines, made as rows are asked for
SELECT line FROM program, geyserpan_lines(image, E'one\ntwo\n\nthree') line WHERE name = 'copy';
SELECT line FROM program, geyserpan_lines(image, E'one\n') line WHERE name = 'copy';
SELECT line FROM program, geyserpan_lines(image, '') line WHERE name = 'copy';
SELECT geyserpan_lines(image, repeat(E'x\n', 300000)) FROM program WHERE name = 'copy' LIMIT 2;
SELECT count(*), sum(line::int) FROM program,
       geyserpan_lines(image, (SELECT string_agg(g || E'\n', '' ORDER BY g) FROM generate_series(1, 10000) g)) line
WHERE name = 'copy';
SELECT line FROM program, geyserpan_lines(image, NULL) line WHERE name = 'copy';
SELECT geyserpan_lines(image, '') FROM program WHERE name = 'broken';
\echo :SQLSTATE
-- an image that is a parameter
CREATE TABLE word (w text);
INSERT INTO word SELECT g::text FROM generate_series(0, 999) g;
PREPARE matched AS SELECT count(*) FILTER (WHERE geyserpan_match($1, w)) AS yes,
    count(*) FILTER (WHERE NOT geyserpan_match($1, w)) AS no,
    count(*) FILTER (WHERE geyserpan_match($1, w) IS NULL) AS broken FROM word;
SELECT name, (SELECT count(*) FROM word WHERE geyserpan_match(image, w)) FROM program WHERE name = 'word';
SELECT image AS word FROM program WHERE name = 'word' \gset
EXECUTE matched(:'word');
RESET geyserpan.max_turns;
