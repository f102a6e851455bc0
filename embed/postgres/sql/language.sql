-- Functions in the language.
SELECT lanname, lanpltrusted FROM pg_language WHERE lanname = 'geyserpan';
SELECT max(image) FILTER (WHERE name = 'copy') AS copy, max(image) FILTER (WHERE name = 'next') AS next,
       max(image) FILTER (WHERE name = 'slow') AS slow, max(image) FILTER (WHERE name = 'word') AS word
    FROM (SELECT name, image::text AS image FROM program) each \gset
CREATE FUNCTION is_zero(text) RETURNS boolean LANGUAGE geyserpan IMMUTABLE PARALLEL SAFE AS :'word';
SELECT c, is_zero(c) FROM unnest(ARRAY['0', '1', '2', NULL]) c;
SELECT count(*) FROM word WHERE is_zero(w);
SELECT count(*) FROM word WHERE NOT is_zero(w);
-- a body may be a source
CREATE FUNCTION following(text) RETURNS text LANGUAGE geyserpan AS $$
.services exit,get,put
.function main,leaf,0,0,37
.fuel 37
    ta 1
    inc %o0
    ta 2
    ta 1
    inc %o0
    ta 2
    ta 1
    inc %o0
    ta 2
    mov 0,%o0
    ta 0
$$;
SELECT following('HAL');
-- a function that is replaced is another one at once, also where a caller remembers it
CREATE FUNCTION told(text) RETURNS text LANGUAGE plpgsql AS $$ BEGIN RETURN following($1); END $$;
SELECT told('HAL');
CREATE OR REPLACE FUNCTION following(text) RETURNS text LANGUAGE geyserpan AS $$
.services exit,put
.function main,leaf,0,0,10
.fuel 10
    mov 66,%o0
    ta 2
    mov 0,%o0
    ta 0
$$;
SELECT told('HAL');
-- results of other types are read from what is put out, arguments are text with a zero byte between two
SET geyserpan.max_turns = 20000000;
SET datestyle = ISO;
CREATE FUNCTION as_int(text) RETURNS int LANGUAGE geyserpan AS :'copy';
CREATE FUNCTION as_bytes(bytea) RETURNS bytea LANGUAGE geyserpan AS :'copy';
CREATE FUNCTION as_json(text) RETURNS jsonb LANGUAGE geyserpan AS :'copy';
CREATE FUNCTION as_words(text) RETURNS text[] LANGUAGE geyserpan AS :'copy';
CREATE FUNCTION as_text(bytea) RETURNS text LANGUAGE geyserpan AS :'copy';
CREATE FUNCTION joined(text, int, date) RETURNS bytea LANGUAGE geyserpan AS :'copy';
CREATE FUNCTION nothing() RETURNS bytea LANGUAGE geyserpan AS :'copy';
CREATE FUNCTION dated(date) RETURNS date LANGUAGE geyserpan AS :'copy';
SELECT as_int('42') + 1 AS as_int, as_bytes('\x00ff') AS as_bytes, as_json('{"a": 1}') -> 'a' AS as_json,
       (as_words('{one,two}'))[2] AS as_words, nothing() AS nothing, dated('2026-03-12') - 1 AS dated;
SELECT encode(joined('ab', 7, '2026-03-12'), 'escape') AS joined;
SELECT joined('ab', NULL, '2026-03-12') IS NULL AS is_null;
SELECT as_int('forty');
\echo :SQLSTATE
SELECT as_text('\x6100');
\echo :SQLSTATE
SELECT as_text('\xff');
\echo :SQLSTATE
RESET geyserpan.max_turns;
SELECT as_int('42');
\echo :SQLSTATE
-- what CREATE FUNCTION refuses
CREATE FUNCTION short(text) RETURNS text LANGUAGE geyserpan AS $$
.services exit,put
.function main,leaf,0,0,15
.fuel 15
    mov 66,%o0
    ta 2
    mov 121,%o0
    ta 2
    mov 0,%o0
    ta 0
$$;
\echo :SQLSTATE
CREATE FUNCTION nothing(text) RETURNS text LANGUAGE geyserpan AS '\x00';
\echo :SQLSTATE
CREATE FUNCTION nothing(text) RETURNS text LANGUAGE geyserpan AS '\x0';
\echo :SQLSTATE
CREATE FUNCTION nothing(text) RETURNS text LANGUAGE geyserpan AS '';
\echo :SQLSTATE
CREATE FUNCTION greedy(text) RETURNS text LANGUAGE geyserpan AS :'slow';
\echo :SQLSTATE
CREATE FUNCTION a_set(text) RETURNS SETOF text LANGUAGE geyserpan AS :'next';
\echo :SQLSTATE
CREATE FUNCTION a_void(text) RETURNS void LANGUAGE geyserpan AS :'next';
CREATE FUNCTION a_trigger() RETURNS trigger LANGUAGE geyserpan AS :'next';
CREATE FUNCTION any_type(anyelement) RETURNS text LANGUAGE geyserpan AS :'next';
CREATE FUNCTION rows(text) RETURNS TABLE (a int) LANGUAGE geyserpan AS :'next';
CREATE FUNCTION two(text, OUT a int, OUT b int) LANGUAGE geyserpan AS :'next';
CREATE PROCEDURE done(text) LANGUAGE geyserpan AS :'next';
\echo :SQLSTATE
SELECT proname FROM pg_proc JOIN pg_language lang ON lang.oid = prolang WHERE lanname = 'geyserpan' ORDER BY proname;
-- with check_function_bodies off, as pg_restore says, a refused body is created, and refused when it is called
SET check_function_bodies = off;
CREATE FUNCTION late(text) RETURNS text LANGUAGE geyserpan AS '\x00';
RESET check_function_bodies;
SELECT late('a');
\echo :SQLSTATE
-- whoever may create may make functions
CREATE ROLE regress_geyserpan_tenant;
GRANT CREATE ON SCHEMA public TO regress_geyserpan_tenant;
SET ROLE regress_geyserpan_tenant;
CREATE FUNCTION of_tenant(text) RETURNS text LANGUAGE geyserpan AS $$
.services exit,put
.function main,leaf,0,0,10
.fuel 10
    mov 66,%o0
    ta 2
    mov 0,%o0
    ta 0
$$;
SELECT of_tenant('HAL');
SET geyserpan.max_turns = 20000000;
\echo :SQLSTATE
RESET ROLE;
DROP FUNCTION of_tenant;
REVOKE CREATE ON SCHEMA public FROM regress_geyserpan_tenant;
DROP ROLE regress_geyserpan_tenant;
