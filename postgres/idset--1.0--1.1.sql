-- From version 1.0 of the extension idset to 1.1. CREATE EXTENSION runs idset--1.0.sql and then this file.
\echo Use "ALTER EXTENSION idset UPDATE" to load this file. \quit

-- Names that no other function has. rank of a literal is an ordered-set aggregate of PostgreSQL, and others may define names such as range.
CREATE FUNCTION idset_contains(idset, id int8) RETURNS bool AS 'MODULE_PATHNAME' LANGUAGE C IMMUTABLE STRICT PARALLEL SAFE COST 20;
CREATE FUNCTION idset_rank(idset, below int8) RETURNS int8 AS 'MODULE_PATHNAME' LANGUAGE C IMMUTABLE STRICT PARALLEL SAFE COST 20;
CREATE FUNCTION idset_seek(idset, target int8) RETURNS int8 AS 'MODULE_PATHNAME' LANGUAGE C IMMUTABLE STRICT PARALLEL SAFE COST 20;
CREATE FUNCTION idset_get(idset, "position" int8) RETURNS int8 AS 'MODULE_PATHNAME' LANGUAGE C IMMUTABLE STRICT PARALLEL SAFE COST 20;
CREATE FUNCTION idset_min(idset) RETURNS int8 AS 'MODULE_PATHNAME' LANGUAGE C IMMUTABLE STRICT PARALLEL SAFE COST 20;
CREATE FUNCTION idset_max(idset) RETURNS int8 AS 'MODULE_PATHNAME' LANGUAGE C IMMUTABLE STRICT PARALLEL SAFE COST 20;
CREATE FUNCTION idset_range(idset, low int8, high int8) RETURNS idset AS 'MODULE_PATHNAME' LANGUAGE C IMMUTABLE STRICT PARALLEL SAFE COST 50;
CREATE FUNCTION idset_slice(idset, first int8, last int8) RETURNS idset AS 'MODULE_PATHNAME' LANGUAGE C IMMUTABLE STRICT PARALLEL SAFE COST 50;

-- What the planner knows: the sets that ANALYZE looked at, and what a call costs by the ids of its sets.
CREATE FUNCTION idset_typanalyze(internal) RETURNS bool AS 'MODULE_PATHNAME' LANGUAGE C STRICT PARALLEL SAFE;
ALTER TYPE idset SET (ANALYZE = idset_typanalyze);
CREATE FUNCTION idset_sel(internal, oid, internal, int4) RETURNS float8 AS 'MODULE_PATHNAME' LANGUAGE C STABLE STRICT PARALLEL SAFE;
CREATE FUNCTION idset_joinsel(internal, oid, internal, int2, internal) RETURNS float8
    AS 'MODULE_PATHNAME' LANGUAGE C STABLE STRICT PARALLEL SAFE;
ALTER OPERATOR && (idset, idset) SET (RESTRICT = idset_sel, JOIN = idset_joinsel);
ALTER OPERATOR @> (idset, idset) SET (RESTRICT = idset_sel, JOIN = idset_joinsel);
ALTER OPERATOR <@ (idset, idset) SET (RESTRICT = idset_sel, JOIN = idset_joinsel);
ALTER OPERATOR @> (idset, int8) SET (RESTRICT = idset_sel, JOIN = idset_joinsel);
ALTER OPERATOR <@ (int8, idset) SET (RESTRICT = idset_sel, JOIN = idset_joinsel);
ALTER OPERATOR @@ (idset, idset_query) SET (RESTRICT = idset_sel, JOIN = idset_joinsel);
ALTER OPERATOR @@ (idset_query, idset) SET (RESTRICT = idset_sel, JOIN = idset_joinsel);
CREATE FUNCTION idset_support(internal) RETURNS internal AS 'MODULE_PATHNAME' LANGUAGE C IMMUTABLE STRICT PARALLEL SAFE;
ALTER FUNCTION idset_gather_or(internal, idset) SUPPORT idset_support;
ALTER FUNCTION idset_gather_and(internal, idset) SUPPORT idset_support;
ALTER FUNCTION idset_gather_xor(internal, idset) SUPPORT idset_support;
ALTER FUNCTION cardinality(idset) SUPPORT idset_support;
ALTER FUNCTION contains(idset, int8) SUPPORT idset_support;
ALTER FUNCTION idset_contains(idset, int8) SUPPORT idset_support;
ALTER FUNCTION idset_is_in(int8, idset) SUPPORT idset_support;
ALTER FUNCTION rank(idset, int8) SUPPORT idset_support;
ALTER FUNCTION idset_rank(idset, int8) SUPPORT idset_support;
ALTER FUNCTION seek(idset, int8) SUPPORT idset_support;
ALTER FUNCTION idset_seek(idset, int8) SUPPORT idset_support;
ALTER FUNCTION get(idset, int8) SUPPORT idset_support;
ALTER FUNCTION idset_get(idset, int8) SUPPORT idset_support;
ALTER FUNCTION min(idset) SUPPORT idset_support;
ALTER FUNCTION idset_min(idset) SUPPORT idset_support;
ALTER FUNCTION max(idset) SUPPORT idset_support;
ALTER FUNCTION idset_max(idset) SUPPORT idset_support;
ALTER FUNCTION count_between(idset, int8, int8) SUPPORT idset_support;
ALTER FUNCTION range(idset, int8, int8) SUPPORT idset_support;
ALTER FUNCTION idset_range(idset, int8, int8) SUPPORT idset_support;
ALTER FUNCTION slice(idset, int8, int8) SUPPORT idset_support;
ALTER FUNCTION idset_slice(idset, int8, int8) SUPPORT idset_support;
ALTER FUNCTION idset_intersect(idset, idset) SUPPORT idset_support;
ALTER FUNCTION idset_unite(idset, idset) SUPPORT idset_support;
ALTER FUNCTION idset_subtract(idset, idset) SUPPORT idset_support;
ALTER FUNCTION idset_symmetric_difference(idset, idset) SUPPORT idset_support;
ALTER FUNCTION idset_add(idset, int8) SUPPORT idset_support;
ALTER FUNCTION idset_remove(idset, int8) SUPPORT idset_support;
ALTER FUNCTION intersect_len(idset, idset) SUPPORT idset_support;
ALTER FUNCTION unite_len(idset, idset) SUPPORT idset_support;
ALTER FUNCTION subtract_len(idset, idset) SUPPORT idset_support;
ALTER FUNCTION symmetric_difference_len(idset, idset) SUPPORT idset_support;
ALTER FUNCTION jaccard(idset, idset) SUPPORT idset_support;
ALTER FUNCTION idset_overlaps(idset, idset) SUPPORT idset_support;
ALTER FUNCTION idset_contains_all(idset, idset) SUPPORT idset_support;
ALTER FUNCTION idset_contained(idset, idset) SUPPORT idset_support;
ALTER FUNCTION idset_matches(idset, idset_query) SUPPORT idset_support;
ALTER FUNCTION idset_query_matches(idset_query, idset) SUPPORT idset_support;
ALTER FUNCTION unnest(idset) SUPPORT idset_support;
DROP FUNCTION idset_rows(internal);

-- Changes of ranges: the numbers from low to high, both included, are added, removed, or turned over. All ids are moved by a number.
CREATE FUNCTION fill(idset, low int8, high int8) RETURNS idset
    AS 'MODULE_PATHNAME', 'idset_fill' LANGUAGE C IMMUTABLE STRICT PARALLEL SAFE COST 100 SUPPORT idset_support;
CREATE FUNCTION clear(idset, low int8, high int8) RETURNS idset
    AS 'MODULE_PATHNAME', 'idset_clear' LANGUAGE C IMMUTABLE STRICT PARALLEL SAFE COST 100 SUPPORT idset_support;
CREATE FUNCTION flip(idset, low int8, high int8) RETURNS idset
    AS 'MODULE_PATHNAME', 'idset_flip' LANGUAGE C IMMUTABLE STRICT PARALLEL SAFE COST 100 SUPPORT idset_support;
CREATE FUNCTION shift(idset, by int8) RETURNS idset
    AS 'MODULE_PATHNAME', 'idset_shift' LANGUAGE C IMMUTABLE STRICT PARALLEL SAFE COST 100 SUPPORT idset_support;

-- A number before a set, and sets with arrays of any type of integers.
CREATE FUNCTION idset_add(int8, idset) RETURNS idset LANGUAGE sql IMMUTABLE STRICT PARALLEL SAFE COST 100 RETURN $2 | $1;
CREATE FUNCTION idset_unite(idset, int8[]) RETURNS idset LANGUAGE sql IMMUTABLE STRICT PARALLEL SAFE COST 100 RETURN $1 | idset($2);
CREATE FUNCTION idset_unite(int8[], idset) RETURNS idset LANGUAGE sql IMMUTABLE STRICT PARALLEL SAFE COST 100 RETURN $2 | idset($1);
CREATE FUNCTION idset_intersect(idset, int8[]) RETURNS idset LANGUAGE sql IMMUTABLE STRICT PARALLEL SAFE COST 100 RETURN $1 & idset($2);
CREATE FUNCTION idset_intersect(int8[], idset) RETURNS idset LANGUAGE sql IMMUTABLE STRICT PARALLEL SAFE COST 100 RETURN $2 & idset($1);
CREATE FUNCTION idset_subtract(idset, int8[]) RETURNS idset LANGUAGE sql IMMUTABLE STRICT PARALLEL SAFE COST 100 RETURN $1 - idset($2);
CREATE OPERATOR | (LEFTARG = int8, RIGHTARG = idset, FUNCTION = idset_add, COMMUTATOR = |);
CREATE OPERATOR | (LEFTARG = idset, RIGHTARG = int8[], FUNCTION = idset_unite, COMMUTATOR = |);
CREATE OPERATOR | (LEFTARG = int8[], RIGHTARG = idset, FUNCTION = idset_unite, COMMUTATOR = |);
CREATE OPERATOR & (LEFTARG = idset, RIGHTARG = int8[], FUNCTION = idset_intersect, COMMUTATOR = &);
CREATE OPERATOR & (LEFTARG = int8[], RIGHTARG = idset, FUNCTION = idset_intersect, COMMUTATOR = &);
CREATE OPERATOR - (LEFTARG = idset, RIGHTARG = int8[], FUNCTION = idset_subtract);

-- What a set is like.
CREATE FUNCTION describe(idset, OUT ids int8, OUT bytes int4, OUT bits_per_id numeric, OUT min int8, OUT max int8)
    LANGUAGE sql IMMUTABLE STRICT PARALLEL SAFE COST 100
    BEGIN ATOMIC
        SELECT cardinality($1), octet_length($1::bytea), round(8.0 * octet_length($1::bytea) / NULLIF(cardinality($1), 0), 1), min($1), max($1);
    END;
