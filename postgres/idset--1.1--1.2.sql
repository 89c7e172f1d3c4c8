-- From version 1.1 of the extension idset to 1.2. CREATE EXTENSION runs the files for earlier versions and then this one.
\echo Use "ALTER EXTENSION idset UPDATE" to load this file. \quit

-- The set of a bitmap in Roaring's portable format, such as roaringbitmap::bytea of pg_roaringbitmap.
CREATE FUNCTION idset_from_roaring(bytea) RETURNS idset AS 'MODULE_PATHNAME' LANGUAGE C IMMUTABLE STRICT PARALLEL SAFE COST 100;

-- The ids as such a bitmap: CAST (idset_to_roaring(ids) AS roaringbitmap).
CREATE FUNCTION idset_to_roaring(idset) RETURNS bytea AS 'MODULE_PATHNAME' LANGUAGE C IMMUTABLE STRICT PARALLEL SAFE COST 100;

-- The two types of sets have functions of the same names. Where no type is given, as in contains('{1,5}', 5), the set is an idset, as it was before.
UPDATE pg_catalog.pg_type SET typcategory = 'i', typispreferred = true WHERE oid = 'idset'::pg_catalog.regtype;

-- The type idset8: sets of ids of 64 bits.
CREATE TYPE idset8;
COMMENT ON TYPE idset8 IS 'a set of ids below 18446744073709551616 in few bits each';

CREATE FUNCTION idset8_in(cstring) RETURNS idset8 AS 'MODULE_PATHNAME' LANGUAGE C IMMUTABLE STRICT PARALLEL SAFE COST 100;
CREATE FUNCTION idset8_out(idset8) RETURNS cstring AS 'MODULE_PATHNAME' LANGUAGE C IMMUTABLE STRICT PARALLEL SAFE COST 100;
CREATE FUNCTION idset8_recv(internal) RETURNS idset8 AS 'MODULE_PATHNAME' LANGUAGE C IMMUTABLE STRICT PARALLEL SAFE COST 20;
CREATE FUNCTION idset8_send(idset8) RETURNS bytea AS 'MODULE_PATHNAME' LANGUAGE C IMMUTABLE STRICT PARALLEL SAFE COST 20;

-- Long values move out of the row, and are not compressed: they are packed.
CREATE TYPE idset8 (
    INPUT = idset8_in, OUTPUT = idset8_out, RECEIVE = idset8_recv, SEND = idset8_send,
    INTERNALLENGTH = VARIABLE, ALIGNMENT = int4, STORAGE = external, CATEGORY = 'i'
);

-- Casts of idset8. Those from arrays sort the numbers and keep each once, so they are not implicit.
CREATE FUNCTION idset8(int2[]) RETURNS idset8 AS 'MODULE_PATHNAME', 'idset8_of_int2' LANGUAGE C IMMUTABLE STRICT PARALLEL SAFE COST 50;
CREATE FUNCTION idset8(int4[]) RETURNS idset8 AS 'MODULE_PATHNAME', 'idset8_of_int4' LANGUAGE C IMMUTABLE STRICT PARALLEL SAFE COST 50;
CREATE FUNCTION idset8(int8[]) RETURNS idset8 AS 'MODULE_PATHNAME', 'idset8_of_int8' LANGUAGE C IMMUTABLE STRICT PARALLEL SAFE COST 50;
CREATE FUNCTION idset8(bytea) RETURNS idset8 AS 'MODULE_PATHNAME', 'idset8_of_bytea' LANGUAGE C IMMUTABLE STRICT PARALLEL SAFE COST 20;
CREATE FUNCTION idset8_to_int8(idset8) RETURNS int8[] AS 'MODULE_PATHNAME' LANGUAGE C IMMUTABLE STRICT PARALLEL SAFE COST 30;
CREATE CAST (int2[] AS idset8) WITH FUNCTION idset8(int2[]) AS ASSIGNMENT;
CREATE CAST (int4[] AS idset8) WITH FUNCTION idset8(int4[]) AS ASSIGNMENT;
CREATE CAST (int8[] AS idset8) WITH FUNCTION idset8(int8[]) AS ASSIGNMENT;
CREATE CAST (idset8 AS int8[]) WITH FUNCTION idset8_to_int8(idset8) AS ASSIGNMENT;
CREATE CAST (bytea AS idset8) WITH FUNCTION idset8(bytea);
CREATE CAST (idset8 AS bytea) WITH FUNCTION idset8_send(idset8);

-- Reading an idset8.
CREATE FUNCTION cardinality(idset8) RETURNS int8 AS 'MODULE_PATHNAME', 'idset8_cardinality' LANGUAGE C IMMUTABLE STRICT PARALLEL SAFE COST 20;
CREATE FUNCTION contains(idset8, id int8) RETURNS bool
    AS 'MODULE_PATHNAME', 'idset8_contains' LANGUAGE C IMMUTABLE STRICT PARALLEL SAFE COST 20;
CREATE FUNCTION rank(idset8, below int8) RETURNS int8 AS 'MODULE_PATHNAME', 'idset8_rank' LANGUAGE C IMMUTABLE STRICT PARALLEL SAFE COST 20;
CREATE FUNCTION seek(idset8, target int8) RETURNS int8 AS 'MODULE_PATHNAME', 'idset8_seek' LANGUAGE C IMMUTABLE STRICT PARALLEL SAFE COST 20;
CREATE FUNCTION get(idset8, "position" int8) RETURNS int8
    AS 'MODULE_PATHNAME', 'idset8_get' LANGUAGE C IMMUTABLE STRICT PARALLEL SAFE COST 20;
CREATE FUNCTION min(idset8) RETURNS int8 AS 'MODULE_PATHNAME', 'idset8_min' LANGUAGE C IMMUTABLE STRICT PARALLEL SAFE COST 20;
CREATE FUNCTION max(idset8) RETURNS int8 AS 'MODULE_PATHNAME', 'idset8_max' LANGUAGE C IMMUTABLE STRICT PARALLEL SAFE COST 20;
CREATE FUNCTION count_between(idset8, low int8, high int8) RETURNS int8
    AS 'MODULE_PATHNAME', 'idset8_count_between' LANGUAGE C IMMUTABLE STRICT PARALLEL SAFE COST 20;
CREATE FUNCTION range(idset8, low int8, high int8) RETURNS idset8
    AS 'MODULE_PATHNAME', 'idset8_range' LANGUAGE C IMMUTABLE STRICT PARALLEL SAFE COST 50;
CREATE FUNCTION slice(idset8, first int8, last int8) RETURNS idset8
    AS 'MODULE_PATHNAME', 'idset8_slice' LANGUAGE C IMMUTABLE STRICT PARALLEL SAFE COST 50;
CREATE FUNCTION idset8_is_in(int8, idset8) RETURNS bool AS 'MODULE_PATHNAME' LANGUAGE C IMMUTABLE STRICT PARALLEL SAFE COST 20;
CREATE FUNCTION unnest(idset8) RETURNS SETOF int8
    AS 'MODULE_PATHNAME', 'idset8_unnest' LANGUAGE C IMMUTABLE STRICT PARALLEL SAFE ROWS 1000;

-- Names that no other function has.
CREATE FUNCTION idset8_contains(idset8, id int8) RETURNS bool AS 'MODULE_PATHNAME' LANGUAGE C IMMUTABLE STRICT PARALLEL SAFE COST 20;
CREATE FUNCTION idset8_rank(idset8, below int8) RETURNS int8 AS 'MODULE_PATHNAME' LANGUAGE C IMMUTABLE STRICT PARALLEL SAFE COST 20;
CREATE FUNCTION idset8_seek(idset8, target int8) RETURNS int8 AS 'MODULE_PATHNAME' LANGUAGE C IMMUTABLE STRICT PARALLEL SAFE COST 20;
CREATE FUNCTION idset8_get(idset8, "position" int8) RETURNS int8 AS 'MODULE_PATHNAME' LANGUAGE C IMMUTABLE STRICT PARALLEL SAFE COST 20;
CREATE FUNCTION idset8_min(idset8) RETURNS int8 AS 'MODULE_PATHNAME' LANGUAGE C IMMUTABLE STRICT PARALLEL SAFE COST 20;
CREATE FUNCTION idset8_max(idset8) RETURNS int8 AS 'MODULE_PATHNAME' LANGUAGE C IMMUTABLE STRICT PARALLEL SAFE COST 20;
CREATE FUNCTION idset8_range(idset8, low int8, high int8) RETURNS idset8 AS 'MODULE_PATHNAME' LANGUAGE C IMMUTABLE STRICT PARALLEL SAFE COST 50;
CREATE FUNCTION idset8_slice(idset8, first int8, last int8) RETURNS idset8 AS 'MODULE_PATHNAME' LANGUAGE C IMMUTABLE STRICT PARALLEL SAFE COST 50;

-- Two of idset8.
CREATE FUNCTION idset8_intersect(idset8, idset8) RETURNS idset8 AS 'MODULE_PATHNAME' LANGUAGE C IMMUTABLE STRICT PARALLEL SAFE COST 100;
CREATE FUNCTION idset8_unite(idset8, idset8) RETURNS idset8 AS 'MODULE_PATHNAME' LANGUAGE C IMMUTABLE STRICT PARALLEL SAFE COST 100;
CREATE FUNCTION idset8_subtract(idset8, idset8) RETURNS idset8 AS 'MODULE_PATHNAME' LANGUAGE C IMMUTABLE STRICT PARALLEL SAFE COST 100;
CREATE FUNCTION idset8_symmetric_difference(idset8, idset8) RETURNS idset8
    AS 'MODULE_PATHNAME' LANGUAGE C IMMUTABLE STRICT PARALLEL SAFE COST 100;
CREATE FUNCTION idset8_add(idset8, int8) RETURNS idset8 AS 'MODULE_PATHNAME' LANGUAGE C IMMUTABLE STRICT PARALLEL SAFE COST 100;
CREATE FUNCTION idset8_remove(idset8, int8) RETURNS idset8 AS 'MODULE_PATHNAME' LANGUAGE C IMMUTABLE STRICT PARALLEL SAFE COST 100;
CREATE FUNCTION intersect_len(idset8, idset8) RETURNS int8
    AS 'MODULE_PATHNAME', 'idset8_intersect_len' LANGUAGE C IMMUTABLE STRICT PARALLEL SAFE COST 50;
CREATE FUNCTION unite_len(idset8, idset8) RETURNS int8
    AS 'MODULE_PATHNAME', 'idset8_unite_len' LANGUAGE C IMMUTABLE STRICT PARALLEL SAFE COST 50;
CREATE FUNCTION subtract_len(idset8, idset8) RETURNS int8
    AS 'MODULE_PATHNAME', 'idset8_subtract_len' LANGUAGE C IMMUTABLE STRICT PARALLEL SAFE COST 50;
CREATE FUNCTION symmetric_difference_len(idset8, idset8) RETURNS int8
    AS 'MODULE_PATHNAME', 'idset8_symmetric_difference_len' LANGUAGE C IMMUTABLE STRICT PARALLEL SAFE COST 50;
CREATE FUNCTION jaccard(idset8, idset8) RETURNS float8
    AS 'MODULE_PATHNAME', 'idset8_jaccard' LANGUAGE C IMMUTABLE STRICT PARALLEL SAFE COST 50;
CREATE FUNCTION idset8_overlaps(idset8, idset8) RETURNS bool AS 'MODULE_PATHNAME' LANGUAGE C IMMUTABLE STRICT PARALLEL SAFE COST 50;
CREATE FUNCTION idset8_contains_all(idset8, idset8) RETURNS bool AS 'MODULE_PATHNAME' LANGUAGE C IMMUTABLE STRICT PARALLEL SAFE COST 50;
CREATE FUNCTION idset8_contained(idset8, idset8) RETURNS bool AS 'MODULE_PATHNAME' LANGUAGE C IMMUTABLE STRICT PARALLEL SAFE COST 50;
CREATE OPERATOR & (LEFTARG = idset8, RIGHTARG = idset8, FUNCTION = idset8_intersect, COMMUTATOR = &);
CREATE OPERATOR | (LEFTARG = idset8, RIGHTARG = idset8, FUNCTION = idset8_unite, COMMUTATOR = |);
CREATE OPERATOR - (LEFTARG = idset8, RIGHTARG = idset8, FUNCTION = idset8_subtract);
CREATE OPERATOR # (LEFTARG = idset8, RIGHTARG = idset8, FUNCTION = idset8_symmetric_difference, COMMUTATOR = #);
CREATE OPERATOR | (LEFTARG = idset8, RIGHTARG = int8, FUNCTION = idset8_add);
CREATE OPERATOR - (LEFTARG = idset8, RIGHTARG = int8, FUNCTION = idset8_remove);
CREATE OPERATOR && (LEFTARG = idset8, RIGHTARG = idset8, FUNCTION = idset8_overlaps, COMMUTATOR = &&,
    RESTRICT = matchingsel, JOIN = matchingjoinsel);
CREATE OPERATOR @> (LEFTARG = idset8, RIGHTARG = idset8, FUNCTION = idset8_contains_all, COMMUTATOR = <@,
    RESTRICT = matchingsel, JOIN = matchingjoinsel);
CREATE OPERATOR <@ (LEFTARG = idset8, RIGHTARG = idset8, FUNCTION = idset8_contained, COMMUTATOR = @>,
    RESTRICT = matchingsel, JOIN = matchingjoinsel);
CREATE OPERATOR @> (LEFTARG = idset8, RIGHTARG = int8, FUNCTION = contains, COMMUTATOR = <@, RESTRICT = matchingsel, JOIN = matchingjoinsel);
CREATE OPERATOR <@ (LEFTARG = int8, RIGHTARG = idset8, FUNCTION = idset8_is_in, COMMUTATOR = @>,
    RESTRICT = matchingsel, JOIN = matchingjoinsel);

-- Equality, hash and order of idset8 are those of idset.
CREATE FUNCTION idset8_eq(idset8, idset8) RETURNS bool AS 'byteaeq' LANGUAGE internal IMMUTABLE STRICT PARALLEL SAFE COST 30;
CREATE FUNCTION idset8_ne(idset8, idset8) RETURNS bool AS 'byteane' LANGUAGE internal IMMUTABLE STRICT PARALLEL SAFE COST 30;
CREATE FUNCTION idset8_hash(idset8) RETURNS int4 AS 'hashvarlena' LANGUAGE internal IMMUTABLE STRICT PARALLEL SAFE COST 30;
CREATE FUNCTION idset8_hash_extended(idset8, int8) RETURNS int8
    AS 'hashvarlenaextended' LANGUAGE internal IMMUTABLE STRICT PARALLEL SAFE COST 30;
CREATE FUNCTION idset8_lt(idset8, idset8) RETURNS bool AS 'MODULE_PATHNAME' LANGUAGE C IMMUTABLE STRICT PARALLEL SAFE COST 30;
CREATE FUNCTION idset8_le(idset8, idset8) RETURNS bool AS 'MODULE_PATHNAME' LANGUAGE C IMMUTABLE STRICT PARALLEL SAFE COST 30;
CREATE FUNCTION idset8_gt(idset8, idset8) RETURNS bool AS 'MODULE_PATHNAME' LANGUAGE C IMMUTABLE STRICT PARALLEL SAFE COST 30;
CREATE FUNCTION idset8_ge(idset8, idset8) RETURNS bool AS 'MODULE_PATHNAME' LANGUAGE C IMMUTABLE STRICT PARALLEL SAFE COST 30;
CREATE FUNCTION idset8_cmp(idset8, idset8) RETURNS int4 AS 'MODULE_PATHNAME' LANGUAGE C IMMUTABLE STRICT PARALLEL SAFE COST 30;
CREATE OPERATOR = (LEFTARG = idset8, RIGHTARG = idset8, FUNCTION = idset8_eq, COMMUTATOR = =, NEGATOR = <>,
    RESTRICT = eqsel, JOIN = eqjoinsel, HASHES, MERGES);
CREATE OPERATOR <> (LEFTARG = idset8, RIGHTARG = idset8, FUNCTION = idset8_ne, COMMUTATOR = <>, NEGATOR = =,
    RESTRICT = neqsel, JOIN = neqjoinsel);
CREATE OPERATOR < (LEFTARG = idset8, RIGHTARG = idset8, FUNCTION = idset8_lt, COMMUTATOR = >, NEGATOR = >=,
    RESTRICT = scalarltsel, JOIN = scalarltjoinsel);
CREATE OPERATOR <= (LEFTARG = idset8, RIGHTARG = idset8, FUNCTION = idset8_le, COMMUTATOR = >=, NEGATOR = >,
    RESTRICT = scalarlesel, JOIN = scalarlejoinsel);
CREATE OPERATOR > (LEFTARG = idset8, RIGHTARG = idset8, FUNCTION = idset8_gt, COMMUTATOR = <, NEGATOR = <=,
    RESTRICT = scalargtsel, JOIN = scalargtjoinsel);
CREATE OPERATOR >= (LEFTARG = idset8, RIGHTARG = idset8, FUNCTION = idset8_ge, COMMUTATOR = <=, NEGATOR = <,
    RESTRICT = scalargesel, JOIN = scalargejoinsel);
CREATE OPERATOR CLASS idset8_btree DEFAULT FOR TYPE idset8 USING btree AS
    OPERATOR 1 <, OPERATOR 2 <=, OPERATOR 3 =, OPERATOR 4 >=, OPERATOR 5 >, FUNCTION 1 idset8_cmp(idset8, idset8);
CREATE OPERATOR CLASS idset8_hash DEFAULT FOR TYPE idset8 USING hash AS
    OPERATOR 1 =, FUNCTION 1 idset8_hash(idset8), FUNCTION 2 idset8_hash_extended(idset8, int8);

-- Aggregates of idset8. pack_agg makes an idset.
CREATE FUNCTION idset8_gather_int2(internal, int2) RETURNS internal AS 'MODULE_PATHNAME' LANGUAGE C IMMUTABLE PARALLEL SAFE;
CREATE FUNCTION idset8_gather_int4(internal, int4) RETURNS internal AS 'MODULE_PATHNAME' LANGUAGE C IMMUTABLE PARALLEL SAFE;
CREATE FUNCTION idset8_gather_int8(internal, int8) RETURNS internal AS 'MODULE_PATHNAME' LANGUAGE C IMMUTABLE PARALLEL SAFE;
CREATE FUNCTION idset8_gather_or(internal, idset8) RETURNS internal AS 'MODULE_PATHNAME' LANGUAGE C IMMUTABLE PARALLEL SAFE COST 30;
CREATE FUNCTION idset8_gather_and(internal, idset8) RETURNS internal AS 'MODULE_PATHNAME' LANGUAGE C IMMUTABLE PARALLEL SAFE COST 30;
CREATE FUNCTION idset8_gather_xor(internal, idset8) RETURNS internal AS 'MODULE_PATHNAME' LANGUAGE C IMMUTABLE PARALLEL SAFE COST 30;
CREATE FUNCTION idset8_combine_or(internal, internal) RETURNS internal AS 'MODULE_PATHNAME' LANGUAGE C IMMUTABLE PARALLEL SAFE COST 30;
CREATE FUNCTION idset8_combine_and(internal, internal) RETURNS internal AS 'MODULE_PATHNAME' LANGUAGE C IMMUTABLE PARALLEL SAFE COST 30;
CREATE FUNCTION idset8_combine_xor(internal, internal) RETURNS internal AS 'MODULE_PATHNAME' LANGUAGE C IMMUTABLE PARALLEL SAFE COST 30;
CREATE FUNCTION idset8_serialize(internal) RETURNS bytea AS 'MODULE_PATHNAME' LANGUAGE C IMMUTABLE STRICT PARALLEL SAFE COST 30;
CREATE FUNCTION idset8_deserialize(bytea, internal) RETURNS internal AS 'MODULE_PATHNAME' LANGUAGE C IMMUTABLE STRICT PARALLEL SAFE COST 30;
CREATE FUNCTION idset8_final(internal) RETURNS idset8 AS 'MODULE_PATHNAME' LANGUAGE C IMMUTABLE PARALLEL SAFE COST 50;
CREATE FUNCTION idset8_final_len(internal) RETURNS int8 AS 'MODULE_PATHNAME' LANGUAGE C IMMUTABLE PARALLEL SAFE COST 50;
CREATE AGGREGATE pack8_agg(int2) (SFUNC = idset8_gather_int2, STYPE = internal, FINALFUNC = idset8_final,
    COMBINEFUNC = idset8_combine_or, SERIALFUNC = idset8_serialize, DESERIALFUNC = idset8_deserialize, PARALLEL = SAFE);
CREATE AGGREGATE pack8_agg(int4) (SFUNC = idset8_gather_int4, STYPE = internal, FINALFUNC = idset8_final,
    COMBINEFUNC = idset8_combine_or, SERIALFUNC = idset8_serialize, DESERIALFUNC = idset8_deserialize, PARALLEL = SAFE);
CREATE AGGREGATE pack8_agg(int8) (SFUNC = idset8_gather_int8, STYPE = internal, FINALFUNC = idset8_final,
    COMBINEFUNC = idset8_combine_or, SERIALFUNC = idset8_serialize, DESERIALFUNC = idset8_deserialize, PARALLEL = SAFE);
CREATE AGGREGATE unite_agg(idset8) (SFUNC = idset8_gather_or, STYPE = internal, FINALFUNC = idset8_final,
    COMBINEFUNC = idset8_combine_or, SERIALFUNC = idset8_serialize, DESERIALFUNC = idset8_deserialize, PARALLEL = SAFE);
CREATE AGGREGATE unite_len_agg(idset8) (SFUNC = idset8_gather_or, STYPE = internal, FINALFUNC = idset8_final_len,
    COMBINEFUNC = idset8_combine_or, SERIALFUNC = idset8_serialize, DESERIALFUNC = idset8_deserialize, PARALLEL = SAFE);
CREATE AGGREGATE intersect_agg(idset8) (SFUNC = idset8_gather_and, STYPE = internal, FINALFUNC = idset8_final,
    COMBINEFUNC = idset8_combine_and, SERIALFUNC = idset8_serialize, DESERIALFUNC = idset8_deserialize, PARALLEL = SAFE);
CREATE AGGREGATE intersect_len_agg(idset8) (SFUNC = idset8_gather_and, STYPE = internal, FINALFUNC = idset8_final_len,
    COMBINEFUNC = idset8_combine_and, SERIALFUNC = idset8_serialize, DESERIALFUNC = idset8_deserialize, PARALLEL = SAFE);
CREATE AGGREGATE symmetric_difference_agg(idset8) (SFUNC = idset8_gather_xor, STYPE = internal, FINALFUNC = idset8_final,
    COMBINEFUNC = idset8_combine_xor, SERIALFUNC = idset8_serialize, DESERIALFUNC = idset8_deserialize, PARALLEL = SAFE);
CREATE AGGREGATE symmetric_difference_len_agg(idset8) (SFUNC = idset8_gather_xor, STYPE = internal, FINALFUNC = idset8_final_len,
    COMBINEFUNC = idset8_combine_xor, SERIALFUNC = idset8_serialize, DESERIALFUNC = idset8_deserialize, PARALLEL = SAFE);

-- A number before an idset8, and one with arrays of any type of integers.
CREATE FUNCTION idset8_add(int8, idset8) RETURNS idset8 LANGUAGE sql IMMUTABLE STRICT PARALLEL SAFE COST 100 RETURN $2 | $1;
CREATE FUNCTION idset8_unite(idset8, int8[]) RETURNS idset8 LANGUAGE sql IMMUTABLE STRICT PARALLEL SAFE COST 100 RETURN $1 | idset8($2);
CREATE FUNCTION idset8_unite(int8[], idset8) RETURNS idset8 LANGUAGE sql IMMUTABLE STRICT PARALLEL SAFE COST 100 RETURN $2 | idset8($1);
CREATE FUNCTION idset8_intersect(idset8, int8[]) RETURNS idset8 LANGUAGE sql IMMUTABLE STRICT PARALLEL SAFE COST 100 RETURN $1 & idset8($2);
CREATE FUNCTION idset8_intersect(int8[], idset8) RETURNS idset8 LANGUAGE sql IMMUTABLE STRICT PARALLEL SAFE COST 100 RETURN $2 & idset8($1);
CREATE FUNCTION idset8_subtract(idset8, int8[]) RETURNS idset8 LANGUAGE sql IMMUTABLE STRICT PARALLEL SAFE COST 100 RETURN $1 - idset8($2);
CREATE OPERATOR | (LEFTARG = int8, RIGHTARG = idset8, FUNCTION = idset8_add, COMMUTATOR = |);
CREATE OPERATOR | (LEFTARG = idset8, RIGHTARG = int8[], FUNCTION = idset8_unite, COMMUTATOR = |);
CREATE OPERATOR | (LEFTARG = int8[], RIGHTARG = idset8, FUNCTION = idset8_unite, COMMUTATOR = |);
CREATE OPERATOR & (LEFTARG = idset8, RIGHTARG = int8[], FUNCTION = idset8_intersect, COMMUTATOR = &);
CREATE OPERATOR & (LEFTARG = int8[], RIGHTARG = idset8, FUNCTION = idset8_intersect, COMMUTATOR = &);
CREATE OPERATOR - (LEFTARG = idset8, RIGHTARG = int8[], FUNCTION = idset8_subtract);

-- What an idset8 is like.
CREATE FUNCTION describe(idset8, OUT ids int8, OUT bytes int4, OUT bits_per_id numeric, OUT min int8, OUT max int8)
    LANGUAGE sql IMMUTABLE STRICT PARALLEL SAFE COST 100
    BEGIN ATOMIC
        SELECT cardinality($1), octet_length($1::bytea), round(8.0 * octet_length($1::bytea) / NULLIF(cardinality($1), 0), 1), min($1), max($1);
    END;
