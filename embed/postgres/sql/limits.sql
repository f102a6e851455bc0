-- Limits: turns, output, memory, time. What a run leaves behind when it is broken off is nothing.
-- what is in use, without the heads of the context's blocks, of which it keeps free ones
CREATE VIEW held AS SELECT sum(used_bytes - 40 * total_nblocks) AS bytes FROM pg_backend_memory_contexts
    WHERE name = 'geyserpan';
-- the turns that are declared count, and not those that a run would take
SELECT geyserpan_run(image, 'abc') FROM program WHERE name = 'copy';
\echo :SQLSTATE
SET geyserpan.max_turns = 16000020;
SELECT geyserpan_run(image, 'abc') FROM program WHERE name = 'copy';
SELECT geyserpan_run(image, 'abc', 16000019) FROM program WHERE name = 'copy';
\echo :SQLSTATE
SELECT geyserpan_run(image, 'abc', 16000020) FROM program WHERE name = 'copy';
SELECT geyserpan_run(image, 'abc', -1) FROM program WHERE name = 'copy';
\echo :SQLSTATE
SHOW geyserpan.max_turns;
SET geyserpan.max_turns = 2000000000000;
SELECT count(*) FROM program WHERE geyserpan_check(image) = 'accepted';
SELECT bytes AS before FROM held \gset
-- output
SET geyserpan.max_output = '1kB';
SELECT length(geyserpan_run(image, repeat('x', 1024))) FROM program WHERE name = 'copy';
SELECT length(geyserpan_run(image, repeat('x', 1025))) FROM program WHERE name = 'copy';
\echo :SQLSTATE
SELECT geyserpan_match(image, repeat('x', 1025)) FROM program WHERE name = 'copy';
SELECT length(geyserpan_fold(image, 'x')) FROM program, generate_series(1, 1024) WHERE name = 'copy';
SELECT length(geyserpan_fold(image, 'x')) FROM program, generate_series(1, 1025) WHERE name = 'copy';
\echo :SQLSTATE
SELECT count(*), sum(length(line)) FROM program, geyserpan_lines(image, repeat(E'x\n', 100000)) line
    WHERE name = 'copy';
SELECT length(line) FROM program, geyserpan_lines(image, repeat('x', 1024)) line WHERE name = 'copy';
SELECT length(line) FROM program, geyserpan_lines(image, repeat('x', 1025)) line WHERE name = 'copy';
\echo :SQLSTATE
RESET geyserpan.max_output;
SELECT length(geyserpan_run(image, repeat('x', 1000000))) FROM program WHERE name = 'copy';
-- time
SET geyserpan.max_turns = 10000000000;
SET statement_timeout = '100ms';
SELECT geyserpan_match(image, '') FROM program WHERE name = 'slow';
\echo :SQLSTATE
SELECT geyserpan_lines(image, '') FROM program WHERE name = 'slow';
\echo :SQLSTATE
SELECT geyserpan_fold(image, 'x') FROM program WHERE name = 'slow';
\echo :SQLSTATE
RESET statement_timeout;
-- errors in the middle of runs, which a block catches
SET geyserpan.max_output = '16kB';
DO $$
DECLARE of_copy bytea := (SELECT image FROM program WHERE name = 'copy');
BEGIN
    FOR i IN 0 .. 999 LOOP
        BEGIN
            CASE i % 4
                WHEN 0 THEN PERFORM geyserpan_run(of_copy, repeat('x', 2000000));
                WHEN 1 THEN PERFORM convert_from(geyserpan_run(of_copy, decode('ff', 'hex')), 'UTF8');
                WHEN 2 THEN PERFORM geyserpan_fold(of_copy, 'a', 16000020 + g) FROM generate_series(1, 2) g;
                ELSE PERFORM 1 / (length(geyserpan_lines(of_copy, E'a\nb\n')) - 1);
            END CASE;
        EXCEPTION WHEN program_limit_exceeded OR character_not_in_repertoire OR division_by_zero
            OR invalid_parameter_value THEN CONTINUE;
        END;
        RAISE NOTICE 'no error: %', i % 4;
    END LOOP;
END $$;
SELECT geyserpan_run(image, 'abc') FROM program WHERE name = 'copy';
SELECT bytes - :before AS more FROM held;
RESET geyserpan.max_output;
-- memory
SET geyserpan.max_memory = '64kB';
SELECT length(geyserpan_assemble(E'.services exit\n.function main,leaf,0,0,20004\n.fuel 20004\n' ||
                          repeat(E'    nop\n', 20000) || E'    mov 0,%o0\n    ta 0\n'));
\echo :SQLSTATE
SELECT geyserpan_run(image, 'abc') FROM program WHERE name = 'copy';
RESET geyserpan.max_memory;
-- long values
SELECT geyserpan_check(decode(repeat('53425838', 2000000), 'hex'));
SELECT geyserpan_match(image, repeat('x', 20000000)) FROM program WHERE name = 'copy';
RESET geyserpan.max_turns;
-- gone without a trace
DROP VIEW held;
DROP TABLE program, refused, word;
\set VERBOSITY terse
DROP EXTENSION geyserpan CASCADE;
