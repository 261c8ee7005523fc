-- A store of schema 4, for sqlite3: the registry of founding.toml after the requests of one_vendor.requests.
PRAGMA journal_mode = WAL;
BEGIN;

CREATE TABLE meta (id INTEGER PRIMARY KEY, version INTEGER NOT NULL, vendor INTEGER NOT NULL, name TEXT NOT NULL) STRICT;
CREATE TABLE curators (name TEXT PRIMARY KEY NOT NULL) STRICT;
CREATE TABLE licences (name TEXT PRIMARY KEY NOT NULL) STRICT;
CREATE TABLE fixed (lo INTEGER PRIMARY KEY, hi INTEGER NOT NULL) STRICT;
CREATE TABLE orgs (slug TEXT PRIMARY KEY NOT NULL, title TEXT NOT NULL, site TEXT NOT NULL, keeper TEXT NOT NULL) STRICT;
CREATE TABLE petitions (id INTEGER PRIMARY KEY, org TEXT NOT NULL, want INTEGER, title TEXT NOT NULL, licence TEXT NOT NULL, site TEXT NOT NULL, source TEXT NOT NULL, state INTEGER NOT NULL, pid INTEGER) STRICT;
CREATE TABLE entries (pid INTEGER PRIMARY KEY, org TEXT NOT NULL, held INTEGER NOT NULL, title TEXT NOT NULL, licence TEXT, site TEXT, source TEXT) STRICT;
CREATE TABLE reserved (pid INTEGER PRIMARY KEY) STRICT;
CREATE TABLE kept (caller TEXT NOT NULL, request_key TEXT NOT NULL, request BLOB NOT NULL, reply TEXT NOT NULL, PRIMARY KEY (caller, request_key)) STRICT;
CREATE TABLE spans (lo INTEGER PRIMARY KEY, hi INTEGER NOT NULL) STRICT;
CREATE TABLE vendors (vid INTEGER PRIMARY KEY, name TEXT NOT NULL) STRICT;
CREATE TABLE spans3 (vid INTEGER NOT NULL, lo INTEGER NOT NULL, hi INTEGER NOT NULL, PRIMARY KEY (vid, lo)) STRICT;
CREATE TABLE entries3 (vid INTEGER NOT NULL, pid INTEGER NOT NULL, org TEXT NOT NULL, held INTEGER NOT NULL, title TEXT NOT NULL, licence TEXT, site TEXT, source TEXT, PRIMARY KEY (vid, pid)) STRICT;
CREATE TABLE petitions3 (id INTEGER PRIMARY KEY, vid INTEGER NOT NULL, org TEXT NOT NULL, want INTEGER, title TEXT NOT NULL, licence TEXT NOT NULL, site TEXT NOT NULL, source TEXT NOT NULL, state INTEGER NOT NULL, pid INTEGER) STRICT;
CREATE TABLE digests4 (id INTEGER PRIMARY KEY, time TEXT, digest TEXT NOT NULL) STRICT;
CREATE TABLE reasons4 (petition INTEGER PRIMARY KEY, reason TEXT NOT NULL) STRICT;

INSERT INTO meta VALUES
    (1, 4, 4617, 'Shared products');
INSERT INTO curators VALUES
    ('cora');
INSERT INTO licences VALUES
    ('GPL-3.0-only'),
    ('MIT');
INSERT INTO fixed VALUES
    (1, 16);
INSERT INTO vendors VALUES
    (4617, 'Shared products');
INSERT INTO orgs VALUES
    ('acme', 'Acmé', 'http://acme.example/', 'ann'),
    ('bolt', 'Bolt', 'https://bolt.example/', 'bob');
INSERT INTO petitions3 VALUES
    (1, 4617, 'acme', 8208, 'Lamp', 'MIT', 'https://acme.example/lamp', 'https://acme.example/src', 1, 8208),
    (2, 4617, 'acme', NULL, 'Ann''s lamp', 'MIT', 'https://acme.example/lamp', 'https://acme.example/src', 1, 17),
    (3, 4617, 'acme', NULL, 'Lamp', 'MIT', 'https://acme.example/lamp', 'https://acme.example/src', 2, NULL),
    (4, 4617, 'acme', NULL, 'Lamp', 'MIT', 'https://acme.example/lamp', 'https://acme.example/src', 3, NULL),
    (5, 4617, 'bolt', 1024, 'Drive', 'MIT', 'https://bolt.example/lamp', 'https://bolt.example/src', 0, NULL),
    (6, 4617, 'bolt', NULL, 'Clock', 'MIT', 'https://bolt.example/lamp', 'https://bolt.example/src', 0, NULL);
INSERT INTO entries3 VALUES
    (4617, 17, 'acme', 0, 'Ann''s lamp', 'MIT', 'https://acme.example/lamp', 'https://acme.example/src'),
    (4617, 768, 'bolt', 1, 'Probe', NULL, NULL, NULL),
    (4617, 769, 'bolt', 0, 'Probe 2', NULL, NULL, NULL),
    (4617, 8208, 'acme', 1, 'Lamp 2', 'GPL-3.0-only', 'https://acme.example/lamp', 'https://acme.example/src');
INSERT INTO spans3 VALUES
    (4617, 8192, 8207),
    (4617, 8224, 8447);
INSERT INTO kept VALUES
    ('ann', 'a1', CAST(replace('enrol|acme|Acme Tools|https://acme.example/', '|', char(9)) AS BLOB), 'enrolled acme'),
    ('ann', 'a2', CAST(replace('amend-org|acme|Acmé|http://acme.example/', '|', char(9)) AS BLOB), 'amended organisation acme'),
    ('bob', 'b1', CAST(replace('enrol|bolt|Bolt|https://bolt.example/', '|', char(9)) AS BLOB), 'enrolled bolt'),
    ('cora', 'c1', CAST(replace('reserve|2000|20ff', '|', char(9)) AS BLOB), 'reserved 2000-20ff'),
    ('cora', 'c2', CAST(replace('release|2010|201f', '|', char(9)) AS BLOB), 'released 2010-201f'),
    ('ann', 'a3', CAST(replace('ask|acme|2010|Lamp|MIT|https://acme.example/lamp|https://acme.example/src', '|', char(9)) AS BLOB), 'petition 1'),
    ('ann', 'a4', CAST(replace('ask|acme|-|Ann''s lamp|MIT|https://acme.example/lamp|https://acme.example/src', '|', char(9)) AS BLOB), 'petition 2'),
    ('ann', 'a5', CAST(replace('ask|acme|-|Lamp|MIT|https://acme.example/lamp|https://acme.example/src', '|', char(9)) AS BLOB), 'petition 3'),
    ('ann', 'a6', CAST(replace('ask|acme|-|Lamp|MIT|https://acme.example/lamp|https://acme.example/src', '|', char(9)) AS BLOB), 'petition 4'),
    ('cora', 'c3', CAST(replace('grant|1|-', '|', char(9)) AS BLOB), 'granted 2010 to acme by petition 1'),
    ('cora', 'c4', CAST(replace('grant|2|-', '|', char(9)) AS BLOB), 'granted 0011 to acme by petition 2'),
    ('cora', 'c5', CAST(replace('decline|3', '|', char(9)) AS BLOB), 'declined petition 3'),
    ('ann', 'a7', CAST(replace('withdraw|4', '|', char(9)) AS BLOB), 'withdrawn petition 4'),
    ('ann', 'a8', CAST(replace('amend|2010|Lamp 2|GPL-3.0-only|https://acme.example/lamp|https://acme.example/src', '|', char(9)) AS BLOB), 'amended 2010'),
    ('ann', 'a9', CAST(replace('return|0011', '|', char(9)) AS BLOB), 'returned 0011'),
    ('cora', 'c6', CAST(replace('import|bolt|0001=Fixed|0011=Taken|0300=Probe|0301=Probe 2|2000=Reserved', '|', char(9)) AS BLOB), 'imported fresh 2, owned 1, reserved 2, doubled 0, untitled 0, zero 0'),
    ('bob', 'b2', CAST(replace('return|0301', '|', char(9)) AS BLOB), 'returned 0301'),
    ('bob', 'b3', CAST(replace('ask|bolt|0400|Drive|MIT|https://bolt.example/lamp|https://bolt.example/src', '|', char(9)) AS BLOB), 'petition 5'),
    ('bob', 'b4', CAST(replace('ask|bolt|-|Clock|MIT|https://bolt.example/lamp|https://bolt.example/src', '|', char(9)) AS BLOB), 'petition 6');
INSERT INTO digests4 VALUES
    (0, NULL, 'b12d2afdbe3ade45513063af7d802715463fce899152192ba61589d4565e5460'),
    (1, NULL, '4c46e6d620ca84fd373484999cc5c269807692c0c1f1d72b7f3986a514435443'),
    (2, NULL, '0d16f3f551bc1f602a5cb2a1ee3c60417e4ad6ee67b8d1a40496e4c9c8551121'),
    (3, NULL, '86cfdeda941c2ca180b8632731d50cc445dde857ee00214b7f69b82cd86a0df3'),
    (4, NULL, '0226e04002529c7a4ccb021a2e0fc3f09d3d687c59b24a2d12c380bc3beeb0f8'),
    (5, NULL, '2f905b3a0d2b6e22d6e1f8d45dd6e345116dd3cffa0e75b065da95f63c8eae6f'),
    (6, NULL, '6ab37cd10348217253b7ba0c95707177b6b92145e78cab1febd94fcf4ea8d91c'),
    (7, NULL, 'dcf00ed85472498e2a97286125b3b944081f14d3fd7a209208e1f9d51ad868df'),
    (8, NULL, '38cf386201ed3f7e5efb8ec8b88e8f26fa12d0a851a120cfa88729f6fefcd099'),
    (9, NULL, 'e0a5b289aacf551a508dfbdd13c068a9ac25bf4a5925f255daeb2f8acca997bb'),
    (10, NULL, '4d69b1b364f20cbf43b9923fc57afee299fe4dd17fe7699bb9766fd951e8a6c1'),
    (11, NULL, 'd23f2c55f5ca15e3357441208a0caaabbfcd37fa712fb9268c37e9100cfe6619'),
    (12, NULL, '4cf3a9212c0da2f282c4898ab87601a77a3277fcd9bff4f168d098873fb7e937'),
    (13, NULL, '63edf42a94f21e2ae544da0163775fb690161362d7e67b496a0dfa02273207de'),
    (14, NULL, 'd870d9990eb52a3988b7d200611bf1e980d9e6acb25850b55857edb58dd4c010'),
    (15, NULL, 'a9bc7f60d901526d11becd6772560e87213009d386e671a2db3be68eb107408e'),
    (16, NULL, '569bedbfdc7090527f19bc8fc391213f8d6828e82488a4bc84bf0fcab5410228'),
    (17, NULL, 'b3109b6473408548f4bb644ff20242e0db8652a1383cd521c0cea96818be643c'),
    (18, NULL, '395717cc14c85d32746612029de59fd17dd25d5f5dc61ea914481881347b4ce7'),
    (19, NULL, 'bc860e0e189bb0bcc2ef8f243b691eaab6ef368e40dd620c652a66dc02fb5358');

COMMIT;
