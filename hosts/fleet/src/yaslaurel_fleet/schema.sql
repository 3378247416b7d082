-- The store of a fleet. A commit of a worker is one transaction over place, state and alert.

create table fleet (
    one boolean primary key default true check (one),     -- one row
    fleet text not null,                                  -- the identity, which the log has too
    format integer not null,                              -- of these tables
    partitions integer not null check (partitions > 0),
    digest bytea not null,                                -- SHA-256 of the policy's normal image
    image bytea not null,
    names text not null                                   -- JSON: names of sources, containers and users
);

create table place (
    part integer primary key,
    at text not null                                      -- identity of the last message whose records are in the states
);

create table state (
    host text primary key,
    part integer not null references place,
    taken bigint not null,                                -- records of the host that are in the snapshot
    snapshot bytea not null
);

create table alert (                                      -- each record that was not answered quiet
    host text not null,
    place bigint not null,                                -- the record's number among those of the host, from 0
    answer integer not null,                              -- 256 alert, 257 blocked, else a refusal
    receiver integer not null,
    tag numeric(20) not null,
    position integer not null,
    primary key (host, place)
);
