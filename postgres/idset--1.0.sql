-- The extension idset, version 1.0. A later version gets a file idset--1.0--LATER.sql with what it changes.
\echo Use "CREATE EXTENSION idset" to load this file. \quit

CREATE TYPE idset;
COMMENT ON TYPE idset IS 'a set of ids from 0 to 4294967295 in few bits each';

CREATE FUNCTION idset_in(cstring) RETURNS idset AS 'MODULE_PATHNAME' LANGUAGE C IMMUTABLE STRICT PARALLEL SAFE COST 100;
CREATE FUNCTION idset_out(idset) RETURNS cstring AS 'MODULE_PATHNAME' LANGUAGE C IMMUTABLE STRICT PARALLEL SAFE COST 100;
CREATE FUNCTION idset_recv(internal) RETURNS idset AS 'MODULE_PATHNAME' LANGUAGE C IMMUTABLE STRICT PARALLEL SAFE COST 20;
CREATE FUNCTION idset_send(idset) RETURNS bytea AS 'MODULE_PATHNAME' LANGUAGE C IMMUTABLE STRICT PARALLEL SAFE COST 20;

-- Long values move out of the row, and are not compressed: they are packed.
CREATE TYPE idset (
    INPUT = idset_in, OUTPUT = idset_out, RECEIVE = idset_recv, SEND = idset_send,
    INTERNALLENGTH = VARIABLE, ALIGNMENT = int4, STORAGE = external
);

-- Casts. Those from arrays sort the numbers and keep each once, so they are not implicit.
CREATE FUNCTION idset(int2[]) RETURNS idset AS 'MODULE_PATHNAME', 'idset_of_int2' LANGUAGE C IMMUTABLE STRICT PARALLEL SAFE COST 50;
CREATE FUNCTION idset(int4[]) RETURNS idset AS 'MODULE_PATHNAME', 'idset_of_int4' LANGUAGE C IMMUTABLE STRICT PARALLEL SAFE COST 50;
CREATE FUNCTION idset(int8[]) RETURNS idset AS 'MODULE_PATHNAME', 'idset_of_int8' LANGUAGE C IMMUTABLE STRICT PARALLEL SAFE COST 50;
CREATE FUNCTION idset(bytea) RETURNS idset AS 'MODULE_PATHNAME', 'idset_of_bytea' LANGUAGE C IMMUTABLE STRICT PARALLEL SAFE COST 20;
CREATE FUNCTION idset_to_int4(idset) RETURNS int4[] AS 'MODULE_PATHNAME' LANGUAGE C IMMUTABLE STRICT PARALLEL SAFE COST 30;
CREATE FUNCTION idset_to_int8(idset) RETURNS int8[] AS 'MODULE_PATHNAME' LANGUAGE C IMMUTABLE STRICT PARALLEL SAFE COST 30;
CREATE CAST (int2[] AS idset) WITH FUNCTION idset(int2[]) AS ASSIGNMENT;
CREATE CAST (int4[] AS idset) WITH FUNCTION idset(int4[]) AS ASSIGNMENT;
CREATE CAST (int8[] AS idset) WITH FUNCTION idset(int8[]) AS ASSIGNMENT;
CREATE CAST (idset AS int4[]) WITH FUNCTION idset_to_int4(idset) AS ASSIGNMENT;
CREATE CAST (idset AS int8[]) WITH FUNCTION idset_to_int8(idset) AS ASSIGNMENT;
CREATE CAST (bytea AS idset) WITH FUNCTION idset(bytea);
CREATE CAST (idset AS bytea) WITH FUNCTION idset_send(idset);

-- Reading.
CREATE FUNCTION cardinality(idset) RETURNS int8 AS 'MODULE_PATHNAME', 'idset_cardinality' LANGUAGE C IMMUTABLE STRICT PARALLEL SAFE COST 20;
CREATE FUNCTION contains(idset, id int8) RETURNS bool
    AS 'MODULE_PATHNAME', 'idset_contains' LANGUAGE C IMMUTABLE STRICT PARALLEL SAFE COST 20;
CREATE FUNCTION rank(idset, below int8) RETURNS int8 AS 'MODULE_PATHNAME', 'idset_rank' LANGUAGE C IMMUTABLE STRICT PARALLEL SAFE COST 20;
CREATE FUNCTION seek(idset, target int8) RETURNS int8 AS 'MODULE_PATHNAME', 'idset_seek' LANGUAGE C IMMUTABLE STRICT PARALLEL SAFE COST 20;
CREATE FUNCTION get(idset, "position" int8) RETURNS int8
    AS 'MODULE_PATHNAME', 'idset_get' LANGUAGE C IMMUTABLE STRICT PARALLEL SAFE COST 20;
CREATE FUNCTION min(idset) RETURNS int8 AS 'MODULE_PATHNAME', 'idset_min' LANGUAGE C IMMUTABLE STRICT PARALLEL SAFE COST 20;
CREATE FUNCTION max(idset) RETURNS int8 AS 'MODULE_PATHNAME', 'idset_max' LANGUAGE C IMMUTABLE STRICT PARALLEL SAFE COST 20;
CREATE FUNCTION count_between(idset, low int8, high int8) RETURNS int8
    AS 'MODULE_PATHNAME', 'idset_count_between' LANGUAGE C IMMUTABLE STRICT PARALLEL SAFE COST 20;
CREATE FUNCTION range(idset, low int8, high int8) RETURNS idset
    AS 'MODULE_PATHNAME', 'idset_range' LANGUAGE C IMMUTABLE STRICT PARALLEL SAFE COST 50;
CREATE FUNCTION slice(idset, first int8, last int8) RETURNS idset
    AS 'MODULE_PATHNAME', 'idset_slice' LANGUAGE C IMMUTABLE STRICT PARALLEL SAFE COST 50;
CREATE FUNCTION idset_is_in(int8, idset) RETURNS bool AS 'MODULE_PATHNAME' LANGUAGE C IMMUTABLE STRICT PARALLEL SAFE COST 20;
CREATE FUNCTION idset_rows(internal) RETURNS internal AS 'MODULE_PATHNAME' LANGUAGE C IMMUTABLE STRICT PARALLEL SAFE;
CREATE FUNCTION unnest(idset) RETURNS SETOF int8
    AS 'MODULE_PATHNAME', 'idset_unnest' LANGUAGE C IMMUTABLE STRICT PARALLEL SAFE ROWS 1000 SUPPORT idset_rows;

-- Sets.
CREATE FUNCTION idset_intersect(idset, idset) RETURNS idset AS 'MODULE_PATHNAME' LANGUAGE C IMMUTABLE STRICT PARALLEL SAFE COST 100;
CREATE FUNCTION idset_unite(idset, idset) RETURNS idset AS 'MODULE_PATHNAME' LANGUAGE C IMMUTABLE STRICT PARALLEL SAFE COST 100;
CREATE FUNCTION idset_subtract(idset, idset) RETURNS idset AS 'MODULE_PATHNAME' LANGUAGE C IMMUTABLE STRICT PARALLEL SAFE COST 100;
CREATE FUNCTION idset_symmetric_difference(idset, idset) RETURNS idset
    AS 'MODULE_PATHNAME' LANGUAGE C IMMUTABLE STRICT PARALLEL SAFE COST 100;
CREATE FUNCTION idset_add(idset, int8) RETURNS idset AS 'MODULE_PATHNAME' LANGUAGE C IMMUTABLE STRICT PARALLEL SAFE COST 100;
CREATE FUNCTION idset_remove(idset, int8) RETURNS idset AS 'MODULE_PATHNAME' LANGUAGE C IMMUTABLE STRICT PARALLEL SAFE COST 100;
CREATE FUNCTION intersect_len(idset, idset) RETURNS int8
    AS 'MODULE_PATHNAME', 'idset_intersect_len' LANGUAGE C IMMUTABLE STRICT PARALLEL SAFE COST 50;
CREATE FUNCTION unite_len(idset, idset) RETURNS int8
    AS 'MODULE_PATHNAME', 'idset_unite_len' LANGUAGE C IMMUTABLE STRICT PARALLEL SAFE COST 50;
CREATE FUNCTION subtract_len(idset, idset) RETURNS int8
    AS 'MODULE_PATHNAME', 'idset_subtract_len' LANGUAGE C IMMUTABLE STRICT PARALLEL SAFE COST 50;
CREATE FUNCTION symmetric_difference_len(idset, idset) RETURNS int8
    AS 'MODULE_PATHNAME', 'idset_symmetric_difference_len' LANGUAGE C IMMUTABLE STRICT PARALLEL SAFE COST 50;
CREATE FUNCTION jaccard(idset, idset) RETURNS float8
    AS 'MODULE_PATHNAME', 'idset_jaccard' LANGUAGE C IMMUTABLE STRICT PARALLEL SAFE COST 50;
CREATE FUNCTION idset_overlaps(idset, idset) RETURNS bool AS 'MODULE_PATHNAME' LANGUAGE C IMMUTABLE STRICT PARALLEL SAFE COST 50;
CREATE FUNCTION idset_contains_all(idset, idset) RETURNS bool AS 'MODULE_PATHNAME' LANGUAGE C IMMUTABLE STRICT PARALLEL SAFE COST 50;
CREATE FUNCTION idset_contained(idset, idset) RETURNS bool AS 'MODULE_PATHNAME' LANGUAGE C IMMUTABLE STRICT PARALLEL SAFE COST 50;
CREATE OPERATOR & (LEFTARG = idset, RIGHTARG = idset, FUNCTION = idset_intersect, COMMUTATOR = &);
CREATE OPERATOR | (LEFTARG = idset, RIGHTARG = idset, FUNCTION = idset_unite, COMMUTATOR = |);
CREATE OPERATOR - (LEFTARG = idset, RIGHTARG = idset, FUNCTION = idset_subtract);
CREATE OPERATOR # (LEFTARG = idset, RIGHTARG = idset, FUNCTION = idset_symmetric_difference, COMMUTATOR = #);
CREATE OPERATOR | (LEFTARG = idset, RIGHTARG = int8, FUNCTION = idset_add);
CREATE OPERATOR - (LEFTARG = idset, RIGHTARG = int8, FUNCTION = idset_remove);
CREATE OPERATOR && (LEFTARG = idset, RIGHTARG = idset, FUNCTION = idset_overlaps, COMMUTATOR = &&,
    RESTRICT = matchingsel, JOIN = matchingjoinsel);
CREATE OPERATOR @> (LEFTARG = idset, RIGHTARG = idset, FUNCTION = idset_contains_all, COMMUTATOR = <@,
    RESTRICT = matchingsel, JOIN = matchingjoinsel);
CREATE OPERATOR <@ (LEFTARG = idset, RIGHTARG = idset, FUNCTION = idset_contained, COMMUTATOR = @>,
    RESTRICT = matchingsel, JOIN = matchingjoinsel);
CREATE OPERATOR @> (LEFTARG = idset, RIGHTARG = int8, FUNCTION = contains, COMMUTATOR = <@, RESTRICT = matchingsel, JOIN = matchingjoinsel);
CREATE OPERATOR <@ (LEFTARG = int8, RIGHTARG = idset, FUNCTION = idset_is_in, COMMUTATOR = @>,
    RESTRICT = matchingsel, JOIN = matchingjoinsel);

-- Queries of ids.
CREATE TYPE idset_query;
COMMENT ON TYPE idset_query IS 'ids with &, |, ! and brackets';

CREATE FUNCTION idset_query_in(cstring) RETURNS idset_query AS 'MODULE_PATHNAME' LANGUAGE C IMMUTABLE STRICT PARALLEL SAFE;
CREATE FUNCTION idset_query_out(idset_query) RETURNS cstring AS 'MODULE_PATHNAME' LANGUAGE C IMMUTABLE STRICT PARALLEL SAFE;
CREATE FUNCTION idset_query_recv(internal) RETURNS idset_query AS 'MODULE_PATHNAME' LANGUAGE C IMMUTABLE STRICT PARALLEL SAFE;
CREATE FUNCTION idset_query_send(idset_query) RETURNS bytea AS 'MODULE_PATHNAME' LANGUAGE C IMMUTABLE STRICT PARALLEL SAFE;
CREATE TYPE idset_query (
    INPUT = idset_query_in, OUTPUT = idset_query_out, RECEIVE = idset_query_recv, SEND = idset_query_send,
    INTERNALLENGTH = VARIABLE, ALIGNMENT = int4, STORAGE = extended
);
CREATE FUNCTION idset_matches(idset, idset_query) RETURNS bool AS 'MODULE_PATHNAME' LANGUAGE C IMMUTABLE STRICT PARALLEL SAFE COST 20;
CREATE FUNCTION idset_query_matches(idset_query, idset) RETURNS bool AS 'MODULE_PATHNAME' LANGUAGE C IMMUTABLE STRICT PARALLEL SAFE COST 20;
CREATE OPERATOR @@ (LEFTARG = idset, RIGHTARG = idset_query, FUNCTION = idset_matches, COMMUTATOR = @@,
    RESTRICT = matchingsel, JOIN = matchingjoinsel);
CREATE OPERATOR @@ (LEFTARG = idset_query, RIGHTARG = idset, FUNCTION = idset_query_matches, COMMUTATOR = @@,
    RESTRICT = matchingsel, JOIN = matchingjoinsel);

-- Equality and hash are those of the bytes, since one set has one form. The order is that of arrays of the ids.
CREATE FUNCTION idset_eq(idset, idset) RETURNS bool AS 'byteaeq' LANGUAGE internal IMMUTABLE STRICT PARALLEL SAFE COST 30;
CREATE FUNCTION idset_ne(idset, idset) RETURNS bool AS 'byteane' LANGUAGE internal IMMUTABLE STRICT PARALLEL SAFE COST 30;
CREATE FUNCTION idset_hash(idset) RETURNS int4 AS 'hashvarlena' LANGUAGE internal IMMUTABLE STRICT PARALLEL SAFE COST 30;
CREATE FUNCTION idset_hash_extended(idset, int8) RETURNS int8
    AS 'hashvarlenaextended' LANGUAGE internal IMMUTABLE STRICT PARALLEL SAFE COST 30;
CREATE FUNCTION idset_lt(idset, idset) RETURNS bool AS 'MODULE_PATHNAME' LANGUAGE C IMMUTABLE STRICT PARALLEL SAFE COST 30;
CREATE FUNCTION idset_le(idset, idset) RETURNS bool AS 'MODULE_PATHNAME' LANGUAGE C IMMUTABLE STRICT PARALLEL SAFE COST 30;
CREATE FUNCTION idset_gt(idset, idset) RETURNS bool AS 'MODULE_PATHNAME' LANGUAGE C IMMUTABLE STRICT PARALLEL SAFE COST 30;
CREATE FUNCTION idset_ge(idset, idset) RETURNS bool AS 'MODULE_PATHNAME' LANGUAGE C IMMUTABLE STRICT PARALLEL SAFE COST 30;
CREATE FUNCTION idset_cmp(idset, idset) RETURNS int4 AS 'MODULE_PATHNAME' LANGUAGE C IMMUTABLE STRICT PARALLEL SAFE COST 30;
CREATE OPERATOR = (LEFTARG = idset, RIGHTARG = idset, FUNCTION = idset_eq, COMMUTATOR = =, NEGATOR = <>,
    RESTRICT = eqsel, JOIN = eqjoinsel, HASHES, MERGES);
CREATE OPERATOR <> (LEFTARG = idset, RIGHTARG = idset, FUNCTION = idset_ne, COMMUTATOR = <>, NEGATOR = =,
    RESTRICT = neqsel, JOIN = neqjoinsel);
CREATE OPERATOR < (LEFTARG = idset, RIGHTARG = idset, FUNCTION = idset_lt, COMMUTATOR = >, NEGATOR = >=,
    RESTRICT = scalarltsel, JOIN = scalarltjoinsel);
CREATE OPERATOR <= (LEFTARG = idset, RIGHTARG = idset, FUNCTION = idset_le, COMMUTATOR = >=, NEGATOR = >,
    RESTRICT = scalarlesel, JOIN = scalarlejoinsel);
CREATE OPERATOR > (LEFTARG = idset, RIGHTARG = idset, FUNCTION = idset_gt, COMMUTATOR = <, NEGATOR = <=,
    RESTRICT = scalargtsel, JOIN = scalargtjoinsel);
CREATE OPERATOR >= (LEFTARG = idset, RIGHTARG = idset, FUNCTION = idset_ge, COMMUTATOR = <=, NEGATOR = <,
    RESTRICT = scalargesel, JOIN = scalargejoinsel);
CREATE OPERATOR CLASS idset_btree DEFAULT FOR TYPE idset USING btree AS
    OPERATOR 1 <, OPERATOR 2 <=, OPERATOR 3 =, OPERATOR 4 >=, OPERATOR 5 >, FUNCTION 1 idset_cmp(idset, idset);
CREATE OPERATOR CLASS idset_hash DEFAULT FOR TYPE idset USING hash AS
    OPERATOR 1 =, FUNCTION 1 idset_hash(idset), FUNCTION 2 idset_hash_extended(idset, int8);

-- Aggregates.
CREATE FUNCTION idset_gather_int2(internal, int2) RETURNS internal AS 'MODULE_PATHNAME' LANGUAGE C IMMUTABLE PARALLEL SAFE;
CREATE FUNCTION idset_gather_int4(internal, int4) RETURNS internal AS 'MODULE_PATHNAME' LANGUAGE C IMMUTABLE PARALLEL SAFE;
CREATE FUNCTION idset_gather_int8(internal, int8) RETURNS internal AS 'MODULE_PATHNAME' LANGUAGE C IMMUTABLE PARALLEL SAFE;
CREATE FUNCTION idset_gather_or(internal, idset) RETURNS internal AS 'MODULE_PATHNAME' LANGUAGE C IMMUTABLE PARALLEL SAFE COST 30;
CREATE FUNCTION idset_gather_and(internal, idset) RETURNS internal AS 'MODULE_PATHNAME' LANGUAGE C IMMUTABLE PARALLEL SAFE COST 30;
CREATE FUNCTION idset_gather_xor(internal, idset) RETURNS internal AS 'MODULE_PATHNAME' LANGUAGE C IMMUTABLE PARALLEL SAFE COST 30;
CREATE FUNCTION idset_combine_or(internal, internal) RETURNS internal AS 'MODULE_PATHNAME' LANGUAGE C IMMUTABLE PARALLEL SAFE COST 30;
CREATE FUNCTION idset_combine_and(internal, internal) RETURNS internal AS 'MODULE_PATHNAME' LANGUAGE C IMMUTABLE PARALLEL SAFE COST 30;
CREATE FUNCTION idset_combine_xor(internal, internal) RETURNS internal AS 'MODULE_PATHNAME' LANGUAGE C IMMUTABLE PARALLEL SAFE COST 30;
CREATE FUNCTION idset_serialize(internal) RETURNS bytea AS 'MODULE_PATHNAME' LANGUAGE C IMMUTABLE STRICT PARALLEL SAFE COST 30;
CREATE FUNCTION idset_deserialize(bytea, internal) RETURNS internal AS 'MODULE_PATHNAME' LANGUAGE C IMMUTABLE STRICT PARALLEL SAFE COST 30;
CREATE FUNCTION idset_final(internal) RETURNS idset AS 'MODULE_PATHNAME' LANGUAGE C IMMUTABLE PARALLEL SAFE COST 50;
CREATE FUNCTION idset_final_len(internal) RETURNS int8 AS 'MODULE_PATHNAME' LANGUAGE C IMMUTABLE PARALLEL SAFE COST 50;
CREATE AGGREGATE pack_agg(int2) (SFUNC = idset_gather_int2, STYPE = internal, FINALFUNC = idset_final,
    COMBINEFUNC = idset_combine_or, SERIALFUNC = idset_serialize, DESERIALFUNC = idset_deserialize, PARALLEL = SAFE);
CREATE AGGREGATE pack_agg(int4) (SFUNC = idset_gather_int4, STYPE = internal, FINALFUNC = idset_final,
    COMBINEFUNC = idset_combine_or, SERIALFUNC = idset_serialize, DESERIALFUNC = idset_deserialize, PARALLEL = SAFE);
CREATE AGGREGATE pack_agg(int8) (SFUNC = idset_gather_int8, STYPE = internal, FINALFUNC = idset_final,
    COMBINEFUNC = idset_combine_or, SERIALFUNC = idset_serialize, DESERIALFUNC = idset_deserialize, PARALLEL = SAFE);
CREATE AGGREGATE unite_agg(idset) (SFUNC = idset_gather_or, STYPE = internal, FINALFUNC = idset_final,
    COMBINEFUNC = idset_combine_or, SERIALFUNC = idset_serialize, DESERIALFUNC = idset_deserialize, PARALLEL = SAFE);
CREATE AGGREGATE unite_len_agg(idset) (SFUNC = idset_gather_or, STYPE = internal, FINALFUNC = idset_final_len,
    COMBINEFUNC = idset_combine_or, SERIALFUNC = idset_serialize, DESERIALFUNC = idset_deserialize, PARALLEL = SAFE);
CREATE AGGREGATE intersect_agg(idset) (SFUNC = idset_gather_and, STYPE = internal, FINALFUNC = idset_final,
    COMBINEFUNC = idset_combine_and, SERIALFUNC = idset_serialize, DESERIALFUNC = idset_deserialize, PARALLEL = SAFE);
CREATE AGGREGATE intersect_len_agg(idset) (SFUNC = idset_gather_and, STYPE = internal, FINALFUNC = idset_final_len,
    COMBINEFUNC = idset_combine_and, SERIALFUNC = idset_serialize, DESERIALFUNC = idset_deserialize, PARALLEL = SAFE);
CREATE AGGREGATE symmetric_difference_agg(idset) (SFUNC = idset_gather_xor, STYPE = internal, FINALFUNC = idset_final,
    COMBINEFUNC = idset_combine_xor, SERIALFUNC = idset_serialize, DESERIALFUNC = idset_deserialize, PARALLEL = SAFE);
CREATE AGGREGATE symmetric_difference_len_agg(idset) (SFUNC = idset_gather_xor, STYPE = internal, FINALFUNC = idset_final_len,
    COMBINEFUNC = idset_combine_xor, SERIALFUNC = idset_serialize, DESERIALFUNC = idset_deserialize, PARALLEL = SAFE);

-- GIN: a key for each id.
CREATE FUNCTION idset_gin_keys(idset, internal) RETURNS internal AS 'MODULE_PATHNAME' LANGUAGE C IMMUTABLE STRICT PARALLEL SAFE;
CREATE FUNCTION idset_gin_query(idset, internal, int2, internal, internal, internal, internal) RETURNS internal
    AS 'MODULE_PATHNAME' LANGUAGE C IMMUTABLE STRICT PARALLEL SAFE;
CREATE FUNCTION idset_gin_consistent(internal, int2, idset, int4, internal, internal, internal, internal) RETURNS bool
    AS 'MODULE_PATHNAME' LANGUAGE C IMMUTABLE STRICT PARALLEL SAFE;
CREATE FUNCTION idset_gin_triconsistent(internal, int2, idset, int4, internal, internal, internal) RETURNS "char"
    AS 'MODULE_PATHNAME' LANGUAGE C IMMUTABLE STRICT PARALLEL SAFE;
CREATE OPERATOR CLASS idset_gin DEFAULT FOR TYPE idset USING gin AS
    OPERATOR 1 && (idset, idset), OPERATOR 2 @> (idset, idset), OPERATOR 3 <@ (idset, idset),
    OPERATOR 4 = (idset, idset), OPERATOR 5 @> (idset, int8), OPERATOR 6 @@ (idset, idset_query),
    FUNCTION 1 btint8cmp(int8, int8),
    FUNCTION 2 idset_gin_keys(idset, internal),
    FUNCTION 3 idset_gin_query(idset, internal, int2, internal, internal, internal, internal),
    FUNCTION 4 idset_gin_consistent(internal, int2, idset, int4, internal, internal, internal, internal),
    FUNCTION 6 idset_gin_triconsistent(internal, int2, idset, int4, internal, internal, internal),
    STORAGE int8;
