-- Verdicts, facts and the domain. The tests behind this one use the extension and the table that it makes.
CREATE EXTENSION geyserpan;
CREATE TABLE program (name text PRIMARY KEY, image geyserpan_image);
-- reads three bytes, and puts each one more out
INSERT INTO program VALUES ('next', geyserpan_assemble($$
.services exit,get,put
.function main,leaf,0,0,37
.fuel 37
    ta 1
    inc %o0
    ta 2
    ta 1
    inc %o0
    ta 2
    ta 1
    inc %o0
    ta 2
    mov 0,%o0
    ta 0
$$));
-- puts out what comes in, up to 1,000,000 bytes
INSERT INTO program VALUES ('copy', geyserpan_assemble($$
.services exit,get,put
.function main,leaf,0,0,16000020
.fuel 16000020
    set 1000000,%o1
.block loop
.cell %o1,1,1000000,0
.fuel 4
.term %o1,16
    ta 1
    cmp %o0,-1
    be done
    nop
.block body
.cell %o0,0,255,0
.cell %o1,1,1000000,0
.fuel -4
.term %o1,16
    ta 2
    deccc %o1
    bne loop
    nop
.block done
.fuel 4
    mov 0,%o0
    ta 0
$$));
-- ends with the word that the first byte is as a digit
INSERT INTO program VALUES ('word', geyserpan_assemble($$
.services exit,get
.function main,leaf,0,0,9
.fuel 9
    ta 1
    sub %o0,48,%o0
    ta 0
$$));
-- puts out a byte, and ends with the word of a failed test: an index that leaves its object, in line 291
INSERT INTO program VALUES ('broken', geyserpan_assemble($$
.services exit,put
.function main,leaf,0,0,11
.fuel 11
    mov 66,%o0
    ta 2
    set 0x10123,%o0
    ta 0
$$));
-- counts down from 2,147,483,647: some half a minute
INSERT INTO program VALUES ('slow', geyserpan_assemble($$
.services exit
.function main,leaf,0,0,6442450950
.fuel 6442450950
    set 2147483647,%o1
.block loop
.cell %o1,1,2147483647,0
.fuel 4
.term %o1,3
    deccc %o1
    bne loop
    nop
.block done
.fuel 4
    mov 0,%o0
    ta 0
$$));
SELECT name, geyserpan_check(image), (geyserpan_facts(image)).* FROM program ORDER BY name;

-- what isn't accepted, each with an SQLSTATE of its own
CREATE TABLE refused (name text, image bytea);
INSERT INTO refused VALUES ('short', geyserpan_assemble($$
.services exit,put
.function main,leaf,0,0,15
.fuel 15
    mov 66,%o0
    ta 2
    mov 121,%o0
    ta 2
    mov 0,%o0
    ta 0
$$)), ('bytes', '\x00'), ('empty', '');
SELECT name, geyserpan_check(image) FROM refused ORDER BY name;
INSERT INTO program SELECT * FROM refused WHERE name = 'short';
\echo :SQLSTATE
INSERT INTO program SELECT * FROM refused WHERE name = 'bytes';
\echo :SQLSTATE
INSERT INTO program SELECT * FROM refused WHERE name = 'empty';
\echo :SQLSTATE
SELECT geyserpan_facts(image) FROM refused WHERE name = 'short';
\echo :SQLSTATE
SELECT geyserpan_verify('\x5342583800');
\echo :SQLSTATE
SELECT geyserpan_assemble(E'\nfrobnicate %o0\n');
\echo :SQLSTATE
SELECT geyserpan_assemble('');
\echo :SQLSTATE
-- null is null
SELECT geyserpan_check(NULL) IS NULL AS check, geyserpan_verify(NULL) IS NULL AS verify,
       geyserpan_facts(NULL) IS NULL AS facts, geyserpan_assemble(NULL) IS NULL AS assemble;
INSERT INTO program VALUES ('none', NULL);
DELETE FROM program WHERE name = 'none';
SELECT count(*) FROM program;
