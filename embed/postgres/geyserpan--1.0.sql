\echo Use "CREATE EXTENSION geyserpan" to load this file. \quit

-- the version of the library that is inside
CREATE FUNCTION geyserpan_version() RETURNS text
    AS 'MODULE_PATHNAME', 'sql_version' LANGUAGE C IMMUTABLE STRICT PARALLEL SAFE;

-- 'accepted', or why not
CREATE FUNCTION geyserpan_check(image bytea) RETURNS text
    AS 'MODULE_PATHNAME', 'sql_check' LANGUAGE C IMMUTABLE STRICT PARALLEL SAFE COST 10000;

-- true, or an error that says why not
CREATE FUNCTION geyserpan_verify(image bytea) RETURNS boolean
    AS 'MODULE_PATHNAME', 'sql_verify' LANGUAGE C IMMUTABLE STRICT PARALLEL SAFE COST 10000;

-- what an accepted image declares and is made of
CREATE FUNCTION geyserpan_facts(image bytea, OUT budget bigint, OUT services text[], OUT version int, OUT words int,
        OUT data_bytes int, OUT stack_pages int, OUT functions int, OUT depth int)
    AS 'MODULE_PATHNAME', 'sql_facts' LANGUAGE C IMMUTABLE STRICT PARALLEL SAFE COST 10000;

-- the image that an annotated source means
CREATE FUNCTION geyserpan_assemble(source text) RETURNS bytea
    AS 'MODULE_PATHNAME', 'sql_assemble' LANGUAGE C IMMUTABLE STRICT PARALLEL SAFE COST 10000;

-- whether its runs go by an object of geyserpan.native_directory
CREATE FUNCTION geyserpan_is_native(image bytea) RETURNS boolean
    AS 'MODULE_PATHNAME', 'sql_is_native' LANGUAGE C STABLE STRICT PARALLEL SAFE COST 10000;

-- A column of this type holds accepted images alone.
CREATE DOMAIN geyserpan_image AS bytea CHECK (geyserpan_verify(VALUE));

-- In each call max_turns only lowers what the setting geyserpan.max_turns grants; no image declares more than 2^40.

-- true where the exit word is 0, false where it is 1, else null
CREATE FUNCTION geyserpan_match(image bytea, input bytea, max_turns bigint DEFAULT 1099511627776) RETURNS boolean
    AS 'MODULE_PATHNAME', 'sql_match' LANGUAGE C IMMUTABLE STRICT PARALLEL SAFE COST 1000;
CREATE FUNCTION geyserpan_match(image bytea, input text, max_turns bigint DEFAULT 1099511627776) RETURNS boolean
    AS 'MODULE_PATHNAME', 'sql_match' LANGUAGE C IMMUTABLE STRICT PARALLEL SAFE COST 1000;

-- what the image puts out where the exit word is 0, else null
CREATE FUNCTION geyserpan_run(image bytea, input bytea, max_turns bigint DEFAULT 1099511627776) RETURNS bytea
    AS 'MODULE_PATHNAME', 'sql_run' LANGUAGE C IMMUTABLE STRICT PARALLEL SAFE COST 1000;
CREATE FUNCTION geyserpan_run(image bytea, input text, max_turns bigint DEFAULT 1099511627776) RETURNS text
    AS 'MODULE_PATHNAME', 'sql_run_text' LANGUAGE C IMMUTABLE STRICT PARALLEL SAFE COST 1000;

-- all that a run tells; test and line where it ended by a test of the compiler's front end
CREATE FUNCTION geyserpan_report(image bytea, input bytea, max_turns bigint DEFAULT 1099511627776,
        OUT output bytea, OUT exit bigint, OUT turns bigint, OUT test text, OUT line int)
    AS 'MODULE_PATHNAME', 'sql_report' LANGUAGE C IMMUTABLE STRICT PARALLEL SAFE COST 1000;

-- what the image puts out, a row a line, made as rows are asked for
CREATE FUNCTION geyserpan_lines(image bytea, input text, max_turns bigint DEFAULT 1099511627776) RETURNS SETOF text
    AS 'MODULE_PATHNAME', 'sql_lines' LANGUAGE C IMMUTABLE STRICT PARALLEL SAFE COST 1000 ROWS 100;

-- one run for each group, which reads a piece from each row
CREATE FUNCTION geyserpan_fold_step(internal, bytea, text) RETURNS internal
    AS 'MODULE_PATHNAME', 'sql_fold_step' LANGUAGE C IMMUTABLE PARALLEL SAFE COST 100;
CREATE FUNCTION geyserpan_fold_step(internal, bytea, text, bigint) RETURNS internal
    AS 'MODULE_PATHNAME', 'sql_fold_step' LANGUAGE C IMMUTABLE PARALLEL SAFE COST 100;
CREATE FUNCTION geyserpan_fold_end(internal) RETURNS text
    AS 'MODULE_PATHNAME', 'sql_fold_end' LANGUAGE C IMMUTABLE PARALLEL SAFE COST 1000;
CREATE AGGREGATE geyserpan_fold(image bytea, piece text)
    (SFUNC = geyserpan_fold_step, STYPE = internal, FINALFUNC = geyserpan_fold_end,
     FINALFUNC_MODIFY = READ_WRITE, PARALLEL = SAFE);
CREATE AGGREGATE geyserpan_fold(image bytea, piece text, max_turns bigint)
    (SFUNC = geyserpan_fold_step, STYPE = internal, FINALFUNC = geyserpan_fold_end,
     FINALFUNC_MODIFY = READ_WRITE, PARALLEL = SAFE);

-- Functions whose body is an image in hex, or an annotated source; CREATE FUNCTION verifies it.
CREATE FUNCTION geyserpan_call() RETURNS language_handler
    AS 'MODULE_PATHNAME', 'sql_call' LANGUAGE C;
CREATE FUNCTION geyserpan_validate(oid) RETURNS void
    AS 'MODULE_PATHNAME', 'sql_validate' LANGUAGE C STRICT;
CREATE TRUSTED LANGUAGE geyserpan HANDLER geyserpan_call VALIDATOR geyserpan_validate;
COMMENT ON LANGUAGE geyserpan IS 'machine code from strangers, verified and bounded before its first row';
