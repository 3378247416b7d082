/*
 * Yaslaurel: a proved information-flow monitor for hosts in C and C++.
 *
 * A host reports what the processes of a system do, one record for each operation. For each container (a file, a volatile
 * such as a pipe, a process) the library keeps the set of sources that its content came from, and answers alert when a
 * mixture lands where the policy forbids it. The access is the host's: an alert does not undo it.
 *
 * USE
 *
 * Link with libyaslaurel: pkg-config --cflags --libs yaslaurel. The host reads or makes a policy image, lends
 * YASLAUREL_SESSION_LENGTH numbers for a session, starts it, and reports each operation:
 *
 *     const size_t length = YASLAUREL_SESSION_LENGTH;
 *     answer = yaslaurel_session_start(image, image_len, session, length);
 *     ...
 *     yaslaurel_record(YASLAUREL_READ, p, o, YASLAUREL_NO_USER, record);
 *     answer = yaslaurel_step(session, length, record, sizeof record,
 *                             &receiver, &tag, &position);
 *
 * An alert is explained by yaslaurel_why and yaslaurel_explain, from the image and the records so far. An image comes
 * from a file, from an access matrix (yaslaurel_matrix_policy), from a text of profiles (yaslaurel_profiles_policy) or
 * from two others (yaslaurel_image_compose). FORMATS.md, which comes with it, has each format in full and a remedy for
 * each refusal.
 *
 * A session is its numbers alone, so a copy of them is a session of its own. To ask what an access would bring, without
 * making it, step a copy and drop it:
 *
 *     memcpy(copy, session, sizeof copy);
 *     answer = yaslaurel_step(copy, length, record, sizeof record,
 *                             &receiver, &tag, &position);
 *
 * The library holds no state of its own, allocates nothing, takes no locks, leaves errno alone and calls nothing but the C
 * library's functions on memory (memset, memcpy and the like): it reads and writes only its own stack and the memory that
 * a call lends it. So there is nothing to set up, to close or to free.
 *
 * ANSWERS
 *
 * Every function that judges or writes returns one number.
 *
 *   0          accepted; for yaslaurel_step and yaslaurel_run: quiet; for yaslaurel_matrix_verdict: consistent
 *   1          yaslaurel_matrix_verdict alone: not consistent; yaslaurel_matrix_silent alone: silent, and its 0 is not
 *              silent; yaslaurel_matrix_game alone: the desk wins, and its 0 is that the guard does
 *   1 to 4     yaslaurel_matrix_judge alone: the first condition that fails
 *   a length   YASLAUREL_HEADER_LENGTH or more: of the image written, from the three functions that write one and return its
 *              length; yaslaurel_image_compose writes the length behind a pointer
 *   256        yaslaurel_step and yaslaurel_run alone: alert
 *   257        yaslaurel_step and yaslaurel_run alone: blocked, neither accepted nor refused
 *   1 to 25    otherwise: refused, with the number of the first condition that fails, in the order below; 18 is a refusal
 *              from yaslaurel_step and yaslaurel_run alone, 20 and 21 from yaslaurel_image_compose, 22 from
 *              yaslaurel_trace_trim, 23 from yaslaurel_matrix_game, 24 from yaslaurel_explain, 25 from yaslaurel_why,
 *              which return no length
 *
 * yaslaurel_meaning has a text for each refusal, yaslaurel_verdict_meaning, yaslaurel_silence_meaning,
 * yaslaurel_judgement_meaning and yaslaurel_outcome_meaning for the answers of these four functions, whose 0 to 4 are no
 * refusals.
 *
 * REFUSALS
 *
 *   9   the session is not YASLAUREL_SESSION_LENGTH numbers, or the output is under YASLAUREL_OUTPUT_LENGTH bytes, for
 *       positions under YASLAUREL_TRIM_LIMIT; for an explanation: links under YASLAUREL_LINKS_LENGTH of the trace's records,
 *       steps under their number, a reason under YASLAUREL_WHY_LENGTH; for events: under YASLAUREL_EVENT_LENGTH numbers; for
 *       figures: not YASLAUREL_FIGURES_LENGTH
 *   1   the image is under YASLAUREL_HEADER_LENGTH or over YASLAUREL_IMAGE_LIMIT bytes
 *   2   the image's leading number, or the offsets and lengths of its four sections
 *   3   a section's length is no multiple of its record, or it has too many records
 *   4   a rule record of the image: its mixtures, or an owner who is no user of the image
 *   5   a container record of the image
 *   6   a user's rule number in the image
 *   7   the operation record: length, code, zero byte, user set wrongly, container over 255, user over 15, an end (code
 *       8) of another object than the process itself
 *   8   a matrix: row counts differ, 0 or over 8 subjects, 0 or over 32 objects, a bit beyond the objects; of three
 *       matrices also: other counts than the first
 *   10  a session row that the record names is not well formed
 *   11  p is no process
 *   12  o is of the wrong kind (read, write, append, exec, delete)
 *   13  o is not free (fork, new file, new volatile); a number is free again when its holder has left
 *   14  the user is not declared
 *   18  a new file for another user than the one on whose behalf p runs; a process that runs on nobody's behalf may name
 *       any declared user
 *   15  a meet of two rules has over 8 mixtures
 *   16  the profiles: text over YASLAUREL_TEXT_LIMIT bytes, not of the grammar, a path profiled twice
 *   17  the profiles: over YASLAUREL_PATHS paths, or a rule of over 8 mixtures in normal form
 *   20  two images to compose: their containers differ in number, kind or atom, their users in number, or the consent is
 *       not YASLAUREL_ATOMS bytes of 0 and 1
 *   21  two images to compose: a place has over 8 mixtures in normal form, or over YASLAUREL_RULES rules are needed
 *   22  the trace is empty, has over YASLAUREL_TRIM_LIMIT records or one that is refused or blocked, or does not end in an
 *       alert
 *   23  a game: source and target are the same or one is no object, over 3 subjects or objects, 0 or over 4 rounds, over 2
 *       withdrawals
 *   24  an explanation: the container is over 255, or the atom over 63
 *   25  an explanation: the trace has no record, or its last is answered neither alert nor blocked
 *
 * A refused call changes no lent memory: neither a slice nor a number behind a pointer. The one exception is
 * yaslaurel_run: a refusal other than 9 is its last record's alone, so the records before it stay done.
 *
 * WHAT THE HOST OWES
 *
 * Given this, the contracts hold for ALL contents and ALL lengths: no content of an image, a session, a record, a row or
 * a text makes a call misbehave.
 *
 *   -  A pointer with its length names that many elements (not bytes) of valid memory: readable, and writable where the
 *      pointer is not const. A pointer without a length names one element.
 *   -  Every pointer is aligned for its type: 8 for uint64_t, 4 for uint32_t. Bytes need no alignment, so a record may be
 *      passed where it lies in a trace.
 *   -  No pointer is null, not even with length 0. With length 0 nothing is read or written through it, so the address of
 *      any object of its type will do: yaslaurel_bytes, yaslaurel_output, yaslaurel_words and yaslaurel_rows turn a null
 *      into one.
 *   -  What a call may write overlaps nothing else that the call is lent. So an image is not normalised in place: `out` is
 *      other memory than `image`.
 *   -  Nobody else writes the lent memory during the call, and nobody else reads what the call may write.
 *   -  Between calls, the session is the host's memory. The promise about chains is for a session that only
 *      yaslaurel_session_start, yaslaurel_step, yaslaurel_run, yaslaurel_events and yaslaurel_figures write.
 *   -  The stack has room for the call: see the numbers whose names end in _STACK.
 *
 * THREADS AND SIGNAL HANDLERS
 *
 * Every function is reentrant. Calls on different sessions may run at the same time, in any number of threads; calls on
 * one session take turns, which the host sees to. A signal handler may call any function, on memory that no call which it
 * may have interrupted is lent, and on a stack with room for it. A call that a handler leaves by longjmp leaves what it
 * may write in no particular state.
 *
 * PLATFORM
 *
 * x86-64 Linux, C11 or later and C++11 or later, gcc or clang. Stored numbers are little-endian.
 */
#ifndef YASLAUREL_H
#define YASLAUREL_H

#include <stddef.h>
#include <stdint.h>

/* Marks a function whose result must not be ignored: gcc and clang warn where it is. */
#if defined(__GNUC__)
#define YASLAUREL_MUST_USE __attribute__((warn_unused_result))
#else
#define YASLAUREL_MUST_USE
#endif

/*
 * How the short functions at the end of this header are defined: in each file that includes it. The shared library has
 * them as functions too, for bindings that read no header; it was compiled with another definition of this name.
 */
#ifndef YASLAUREL_INLINE
#define YASLAUREL_INLINE static inline
#endif

/* The version of this header, in one number to compare with. yaslaurel_version gives the library's. */
#define YASLAUREL_VERSION_MAJOR 0u
#define YASLAUREL_VERSION_MINOR 4u
#define YASLAUREL_VERSION_PATCH 0u
#define YASLAUREL_VERSION                                                                                              \
    (YASLAUREL_VERSION_MAJOR * 65536u + YASLAUREL_VERSION_MINOR * 256u + YASLAUREL_VERSION_PATCH)

/*
 * Atoms. A tag, what a container holds, is a set of 64 atoms in one number: atom k is worth 2 to the k, so it is bit k.
 * Bits 0 to 31 are the data atoms, the sources that a policy tells apart. Bit k + 32 is the running atom of data atom k:
 * the same content, executed. A process has it while it runs a program that came from source k, and hands it on to what
 * it writes; a read passes no running atom on. A mixture, what a rule permits together, is such a set too, and a rule
 * covers a tag if one of its mixtures holds all of the tag.
 */
#define YASLAUREL_ATOMS 32u   /* data atoms */
#define YASLAUREL_RUNNING 32u /* how far the running atom of a data atom is behind it */

/* The sizes of the formats and the places in them. Names that end in _AT are places, counted from 0. */

/*
 * A policy image, in bytes: a header, then four sections of records. The header has the leading number, then offset and
 * length of each section, 16 bits each: 0 containers, 1 users, 2 rules, 3 mixtures. A section starts at or after the end
 * of the one before. The number of a container, a user, a rule or a mixture is its place in its section, from 0.
 */
#define YASLAUREL_LEADING 5u         /* the number that an image begins with */
#define YASLAUREL_HEADER_LENGTH 18u  /* also of the smallest image */
#define YASLAUREL_IMAGE_LIMIT 20480u /* of the longest image */
#define YASLAUREL_SECTIONS 4u
#define YASLAUREL_OFFSET_AT(section) (2u + 4u * (section)) /* of a section, in the header */
#define YASLAUREL_LENGTH_AT(section) (4u + 4u * (section))

/*
 * A record of each section in bytes, and how many there are at most. The permit rule of a file says which tags it may
 * hold, its run rule which tags a process may hold that runs it, a user's rule which tags a process may hold that runs on
 * the user's behalf, and a file made for the user. Volatiles and processes have no atom and unrestricted rules.
 */
#define YASLAUREL_CONTAINER_LENGTH 6u /* kind (8 bits), atom (8), permit rule (16), run rule (16) */
#define YASLAUREL_USER_LENGTH 2u      /* rule (16) */
#define YASLAUREL_RULE_LENGTH 6u      /* first mixture (16), count (16), owner (16); the firsts never fall */
#define YASLAUREL_MIXTURE_LENGTH 8u   /* atoms (64) */
#define YASLAUREL_CONTAINERS 256u
#define YASLAUREL_USERS 16u
#define YASLAUREL_RULES 256u
#define YASLAUREL_MIXTURES 2048u
#define YASLAUREL_RULE_MIXTURES 8u /* mixtures of one rule at most */

/* Kinds of a container. A number without a holder is free. */
#define YASLAUREL_FREE 0u /* in a session alone */
#define YASLAUREL_FILE 1u
#define YASLAUREL_VOLATILE 2u
#define YASLAUREL_PROCESS 3u
#define YASLAUREL_GUARDED 4u /* a file into which no write or append brings a forbidden mixture */

/* What stands for none. */
#define YASLAUREL_NO_ATOM 255u        /* no atom of a container */
#define YASLAUREL_UNRESTRICTED 65535u /* no rule: every tag is covered */
#define YASLAUREL_NO_OWNER 65535u     /* of a rule: nobody; else a user of the image */
#define YASLAUREL_NO_USER 65535u      /* no user of an operation, or of a container */

/* Bytes that an output for an image must hold. */
#define YASLAUREL_OUTPUT_LENGTH                                                                                        \
    (YASLAUREL_HEADER_LENGTH + YASLAUREL_CONTAINERS * YASLAUREL_CONTAINER_LENGTH +                                     \
     YASLAUREL_USERS * YASLAUREL_USER_LENGTH + YASLAUREL_RULES * YASLAUREL_RULE_LENGTH +                               \
     YASLAUREL_MIXTURES * YASLAUREL_MIXTURE_LENGTH)

/* A text of profiles: bytes at most, of the text and of a path, and different paths at most. */
#define YASLAUREL_TEXT_LIMIT 16384u
#define YASLAUREL_PATH_LIMIT 64u
#define YASLAUREL_PATHS 32u

/* An operation record, in bytes; yaslaurel_record makes one. */
#define YASLAUREL_RECORD_LENGTH 8u
#define YASLAUREL_CODE_AT 0u    /* 8 bits: the code */
#define YASLAUREL_ZERO_AT 1u    /* 8 bits: 0 */
#define YASLAUREL_PROCESS_AT 2u /* 16 bits: the process p, 0 to 255 */
#define YASLAUREL_OBJECT_AT 4u  /* 16 bits: the object o, 0 to 255 */
#define YASLAUREL_USER_AT 6u    /* 16 bits: the user u, 0 to 15, for exec and new file; else YASLAUREL_NO_USER */

/*
 * An event, in numbers of 64 bits: a record that is not answered quiet. Its place among the records of the call, from 0, its
 * answer as yaslaurel_step returns it, then receiver, tag and position as from yaslaurel_step, all 0 for a refusal.
 */
#define YASLAUREL_EVENT_LENGTH 5u
#define YASLAUREL_EVENT_PLACE_AT 0u
#define YASLAUREL_EVENT_ANSWER_AT 1u
#define YASLAUREL_EVENT_RECEIVER_AT 2u
#define YASLAUREL_EVENT_TAG_AT 3u
#define YASLAUREL_EVENT_POSITION_AT 4u

/*
 * The figures of records, in numbers of 64 bits: how many there are, how many were accepted (alerts among them), alerted, refused
 * and blocked, then the alerts of each container number.
 */
#define YASLAUREL_FIGURES_LENGTH (YASLAUREL_FIGURES_CONTAINERS_AT + YASLAUREL_CONTAINERS)
#define YASLAUREL_FIGURES_RECORDS_AT 0u
#define YASLAUREL_FIGURES_ACCEPTED_AT 1u
#define YASLAUREL_FIGURES_ALERTS_AT 2u
#define YASLAUREL_FIGURES_REFUSED_AT 3u
#define YASLAUREL_FIGURES_BLOCKED_AT 4u
#define YASLAUREL_FIGURES_CONTAINERS_AT 5u

/* Records of a trace that is trimmed, at most, and bytes that an output for their positions must hold. */
#define YASLAUREL_TRIM_LIMIT 256u

/*
 * An explanation: the links that it is lent for a trace of so many records (a short last one counts), in numbers of 64
 * bits; its steps are as many as the records. Then the numbers of a reason, and the places in it; behind
 * YASLAUREL_WHY_LACKED_AT there is one for each mixture of the rule, zeros behind the last.
 */
#define YASLAUREL_TRACE_RECORDS(trace_length) (((size_t)(trace_length) + 7) / 8)
#define YASLAUREL_LINKS_LENGTH(records) (258 + 2 * (size_t)(records))
#define YASLAUREL_NO_CHAIN 256u /* a file: there is no chain */
#define YASLAUREL_WHY_LENGTH 17
#define YASLAUREL_WHY_RECEIVER_AT 0u
#define YASLAUREL_WHY_TAG_AT 1u       /* as answered */
#define YASLAUREL_WHY_ORIGIN_AT 2u    /* one of the four below */
#define YASLAUREL_WHY_RECORD_AT 3u    /* of the new file, or of the exec; 0 for the own rule */
#define YASLAUREL_WHY_FROM_AT 4u      /* the container, the user, or the file where the run rule's chain begins */
#define YASLAUREL_WHY_RULE_AT 5u      /* the rule's number in the image */
#define YASLAUREL_WHY_OWNER_AT 6u     /* its owner, or YASLAUREL_NO_OWNER */
#define YASLAUREL_WHY_FIRST_AT 7u     /* where the records of the run rule's chain stand in the steps, up to their end */
#define YASLAUREL_WHY_MIXTURES_AT 8u  /* how many mixtures the rule has in the image */
#define YASLAUREL_WHY_LACKED_AT 9u    /* the least atom of the tag that each of them lacks, in the image's order */
#define YASLAUREL_ORIGIN_OWN 0u       /* the container's own permit rule */
#define YASLAUREL_ORIGIN_MADE 1u      /* the rule of the user for whom the file was made */
#define YASLAUREL_ORIGIN_USER 2u      /* the rule of the user for whom the process runs */
#define YASLAUREL_ORIGIN_RUN 3u       /* a run rule of what the process runs */

/*
 * Codes of operations: process p does it to object o. The receiver is p for read, exec and end, else o. The first five
 * may answer alert, the others never do. A number whose holder has ended or was deleted may be taken again.
 */
#define YASLAUREL_READ 1u         /* p reads file or volatile o: it gains the data atoms of o */
#define YASLAUREL_WRITE 2u        /* p overwrites file or volatile o: it holds what p holds, and nothing else */
#define YASLAUREL_APPEND 3u       /* p adds to file or volatile o: it gains what p holds */
#define YASLAUREL_EXEC 4u         /* p starts the program in file o for user u: it keeps its data, and runs that of o */
#define YASLAUREL_FORK 5u         /* p makes process o, a copy of itself */
#define YASLAUREL_NEW_FILE 6u     /* p makes file o for user u */
#define YASLAUREL_NEW_VOLATILE 7u /* p makes volatile o */
#define YASLAUREL_END 8u          /* p ends; o is p */
#define YASLAUREL_DELETE 9u       /* p deletes file or volatile o */

/*
 * A session, in numbers of 64 bits: a row for each container, then one for each user. A rule in a row is its count, 0 to
 * 8, then eight mixtures, zeros behind the last. A row of a free number or an undeclared user is all 0.
 */
#define YASLAUREL_CONTAINER_ROW 21u
#define YASLAUREL_USER_ROW 10u
#define YASLAUREL_USERS_AT (YASLAUREL_CONTAINERS * YASLAUREL_CONTAINER_ROW) /* the first user's row */
#define YASLAUREL_SESSION_LENGTH (YASLAUREL_USERS_AT + YASLAUREL_USERS * YASLAUREL_USER_ROW)
#define YASLAUREL_KIND_AT 0u      /* in a container's row */
#define YASLAUREL_TAG_AT 1u       /* in a container's row */
#define YASLAUREL_PERMIT_AT 2u    /* in a container's row: the permit rule */
#define YASLAUREL_RUN_AT 11u      /* in a container's row: the run rule */
#define YASLAUREL_BEHALF_AT 20u   /* in a container's row: the user on whose behalf a process runs, or YASLAUREL_NO_USER */
#define YASLAUREL_DECLARED_AT 0u  /* in a user's row: 1 if declared */
#define YASLAUREL_USER_RULE_AT 1u /* in a user's row: the user's rule */

/* Answers that are no refusals. */
#define YASLAUREL_ACCEPTED 0u
#define YASLAUREL_QUIET 0u
#define YASLAUREL_ALERT 256u
#define YASLAUREL_BLOCKED 257u
#define YASLAUREL_NO_POSITION 255u /* a position: no mixture holds the tag */
#define YASLAUREL_CONSISTENT 0u
#define YASLAUREL_NOT_CONSISTENT 1u
#define YASLAUREL_NOT_SILENT 0u
#define YASLAUREL_SILENT 1u
#define YASLAUREL_GUARD 0u
#define YASLAUREL_DESK 1u

/* Moves of the desk in a game: YASLAUREL_READ, YASLAUREL_APPEND, and the pass. */
#define YASLAUREL_PASS 0u

/* The most subjects and objects, rounds and withdrawals of a game. */
#define YASLAUREL_GAME_SUBJECTS 3u
#define YASLAUREL_GAME_OBJECTS 3u
#define YASLAUREL_GAME_ROUNDS 4u
#define YASLAUREL_GAME_WITHDRAWALS 2u

/* Answers of yaslaurel_matrix_judge that are neither 0 nor a refusal: the first condition that fails. */
#define YASLAUREL_RIGHT_ADDED 1u
#define YASLAUREL_RIGHT_LOST 2u
#define YASLAUREL_PROPOSAL_NOT_CONSISTENT 3u
#define YASLAUREL_NOT_MINIMAL 4u

/* Refusals. */
#define YASLAUREL_REFUSED_IMAGE_LENGTH 1u
#define YASLAUREL_REFUSED_SECTIONS 2u
#define YASLAUREL_REFUSED_RECORD_COUNT 3u
#define YASLAUREL_REFUSED_RULE 4u
#define YASLAUREL_REFUSED_CONTAINER 5u
#define YASLAUREL_REFUSED_USER 6u
#define YASLAUREL_REFUSED_RECORD 7u
#define YASLAUREL_REFUSED_MATRIX 8u
#define YASLAUREL_REFUSED_LENT_LENGTH 9u
#define YASLAUREL_REFUSED_ROW 10u
#define YASLAUREL_REFUSED_NO_PROCESS 11u
#define YASLAUREL_REFUSED_KIND 12u
#define YASLAUREL_REFUSED_NOT_FREE 13u
#define YASLAUREL_REFUSED_UNDECLARED 14u
#define YASLAUREL_REFUSED_MEET 15u
#define YASLAUREL_REFUSED_PROFILE_TEXT 16u
#define YASLAUREL_REFUSED_PROFILE_LIMIT 17u
#define YASLAUREL_REFUSED_OTHER_USER 18u
#define YASLAUREL_REFUSED_COMPOSITION_INPUT 20u
#define YASLAUREL_REFUSED_COMPOSITION_LIMIT 21u
#define YASLAUREL_REFUSED_TRIM 22u
#define YASLAUREL_REFUSED_GAME 23u
#define YASLAUREL_REFUSED_EXPLAIN_BOUNDS 24u
#define YASLAUREL_REFUSED_EXPLAIN_TRACE 25u

/*
 * Bytes of stack that a call needs at most, with its arguments and all that it calls. What the C library's memory
 * functions need comes on top: next to nothing, but some kilobytes at the first call in a program whose dynamic linker
 * looks a function up when it is called.
 */
#define YASLAUREL_VERSION_STACK 16u
#define YASLAUREL_IMAGE_CHECK_STACK 128u
#define YASLAUREL_IMAGE_NORMALISE_STACK 32768u
#define YASLAUREL_SESSION_START_STACK 1536u
#define YASLAUREL_STEP_STACK 1536u
#define YASLAUREL_RUN_STACK 1536u
#define YASLAUREL_EVENTS_STACK 1536u
#define YASLAUREL_FIGURES_STACK 1536u
#define YASLAUREL_FIGURES_ADD_STACK 32u
#define YASLAUREL_TRACE_TRIM_STACK 92160u
#define YASLAUREL_EXPLAIN_STACK 53248u
#define YASLAUREL_WHY_STACK 53248u
#define YASLAUREL_MATRIX_VERDICT_STACK 256u
#define YASLAUREL_MATRIX_SILENT_STACK 192u
#define YASLAUREL_MATRIX_GAME_STACK 512u
#define YASLAUREL_MATRIX_JUDGE_STACK 384u
#define YASLAUREL_MATRIX_POLICY_STACK 12288u
#define YASLAUREL_PROFILES_POLICY_STACK 36864u
#define YASLAUREL_IMAGE_COMPOSE_STACK 57344u

#ifdef __cplusplus
extern "C" {
#endif

/*
 * Gives the version of the library.
 *
 * Returns major times 65536 plus minor times 256 plus patch. A host may compare it with YASLAUREL_VERSION, the version of
 * the header that it was compiled with.
 */
uint32_t yaslaurel_version(void);

/*
 * Checks a policy image.
 *
 * Returns 0 if it is accepted, else 1 to 6.
 */
YASLAUREL_MUST_USE
uint32_t yaslaurel_image_check(const uint8_t *image, size_t image_len);

/*
 * Writes the normal image of a policy image. It comes to the front of `out`; the bytes behind it stay. Two accepted images
 * have the same normal image exactly when they start equal sessions and have the same owner at every use of a rule. `out` is
 * other memory than `image`.
 *
 * Returns the length of the normal image (YASLAUREL_HEADER_LENGTH to YASLAUREL_OUTPUT_LENGTH), else 9, then 1 to 6. The
 * two ranges do not meet.
 */
YASLAUREL_MUST_USE
uint32_t yaslaurel_image_normalise(const uint8_t *image, size_t image_len, uint8_t *out, size_t out_len);

/*
 * Starts a session. All its numbers are filled from the policy image, whatever stood there.
 *
 * Returns 0 if the image is accepted, else 9, then 1 to 6.
 */
YASLAUREL_MUST_USE
uint32_t yaslaurel_session_start(const uint8_t *image, size_t image_len, uint64_t *session, size_t session_len);

/*
 * Judges one operation record. The session is brought up to date. An alert does not undo the access. A write or append into
 * a guarded file that would raise an alert is blocked instead: the session stays as it was, and the host must not make the
 * access. So a host that has guarded files asks before each write and append, and makes the access on quiet and on alert
 * alone; an alerted access counts as made.
 *
 * Returns 0 quiet or 256 alert: `receiver` is then the number of the container that received, `tag` the set of its atoms,
 * atom k worth 2 to the k; for an end or a delete, the number of the container that leaves, and 0. 257 blocked: `receiver`
 * is the guarded file, `tag` what it would have held. `position` is the place, 0 to 7, of the first mixture in the receiver's
 * permit rule (as its row has it, in ascending order) that holds all of the tag, and so tells which permission let the flow
 * through; YASLAUREL_NO_POSITION if none does, as in an alert, where it is blocked, for a new file under a rule without
 * mixtures, and for a container that leaves. Else 9, then 7, then 10 to 14, 18 or 15, and `receiver`, `tag` and `position`
 * keep what they held.
 */
YASLAUREL_MUST_USE
uint32_t yaslaurel_step(uint64_t *session, size_t session_len, const uint8_t *record, size_t record_len,
                        uint64_t *receiver, uint64_t *tag, uint32_t *position);

/*
 * Judges records up to the first that is not quiet. They lie one behind the other in `records`; each is judged as
 * yaslaurel_step does (the last may be short, and is then refused with 7), up to and with the first that is not answered
 * quiet, or to the end.
 *
 * To go on, call again with the records behind: YASLAUREL_RECORD_LENGTH times `taken` bytes further, none left if that is
 * `records_len` or more. The answers are those of yaslaurel_step on each record in turn.
 *
 * Returns 0 if each was quiet, also if there is none; 256 alert or 257 blocked, with `receiver`, `tag` and `position` as from
 * yaslaurel_step; else that record's refusal, 7, 10 to 15 or 18, which changes nothing of its own, while the records before
 * it stay done. `taken` is then how many were judged, the last included; `receiver`, `tag` and `position` are written in an
 * alert and a blocked record alone. 9 comes first, also without records, and nothing changes, `taken` neither.
 */
YASLAUREL_MUST_USE
uint32_t yaslaurel_run(uint64_t *session, size_t session_len, const uint8_t *records, size_t records_len,
                       size_t *taken, uint64_t *receiver, uint64_t *tag, uint32_t *position);

/*
 * Judges records and gathers all that are not quiet, for callers to whom a call is dear. The records lie one behind the other
 * in `records`; each is judged as yaslaurel_step does (the last may be short, and is then refused with 7). For each that is
 * not answered quiet, an event goes to `events`, in the order of the records. The call goes on to the end, but stops before
 * the first record for which `events` has no room for one more event.
 *
 * To go on, call again with the records behind: YASLAUREL_RECORD_LENGTH times `taken` bytes further, none left if that is
 * `records_len` or more. Each call takes at least one record if there is one, and places begin from 0 in each.
 *
 * Returns 0: `taken` is how many records were judged, `written` how many events there are, at the front of `events`; the
 * numbers behind them stay. Else 9, also without records, and nothing changes.
 */
YASLAUREL_MUST_USE
uint32_t yaslaurel_events(uint64_t *session, size_t session_len, const uint8_t *records, size_t records_len,
                          uint64_t *events, size_t events_len, size_t *taken, size_t *written);

/*
 * Judges records to their end, and counts them by their answers. They lie one behind the other in `records`; each is judged
 * as yaslaurel_step does (the last may be short, and is then refused with 7).
 *
 * Returns 0: `figures` has the figures of these records, whatever it held. Else 9, also without records, and nothing
 * changes.
 */
YASLAUREL_MUST_USE
uint32_t yaslaurel_figures(uint64_t *session, size_t session_len, const uint8_t *records, size_t records_len,
                           uint64_t *figures, size_t figures_len);

/*
 * Adds figures to a total, each number to its like: those of the parts of a trace, one behind the other on one session, add up
 * to those of the trace, and those of traces to those of all. A sum of 2 to the 64 or more wraps round, which takes as many
 * records.
 *
 * Returns 0. Else 9, and nothing changes.
 */
YASLAUREL_MUST_USE
uint32_t yaslaurel_figures_add(uint64_t *total, size_t total_len, const uint64_t *figures, size_t figures_len);

/*
 * Trims a trace to its alert. The call needs about 90 KiB of stack, more than some threads have: see
 * YASLAUREL_TRACE_TRIM_STACK. Of up to YASLAUREL_TRIM_LIMIT records in `trace`, one behind the other, whose last raises an
 * alert on a new session of the image, it keeps some, always the last: those kept are all accepted one after the other, the
 * last of them still raises an alert, and no single further one can go without that. Passes over the trace, from first to
 * last, drop each record that can go at its turn, until one drops nothing; so the same trace always leaves the same records,
 * which need not be the fewest that would do. The session is the call's own. A record that is refused or blocked in a host's
 * trace changed nothing and may be left out before the call.
 *
 * Returns 0: the front of `positions` has the places of the kept records, counted from 0 in `trace`, one byte each, rising,
 * and `kept` is how many they are, 1 to YASLAUREL_TRIM_LIMIT; the bytes behind them stay. Else 9, then 1 to 6, then 22, and
 * `positions` and `kept` keep what they held. 22 covers a trace whose last record is short.
 */
YASLAUREL_MUST_USE
uint32_t yaslaurel_trace_trim(const uint8_t *image, size_t image_len, const uint8_t *trace, size_t trace_len,
                              uint8_t *positions, size_t positions_len, size_t *kept);

/*
 * Tells how an atom came into a container: a chain. The records of `trace`, one behind the other, run on a new session
 * of the image; the last may be short. A chain begins in a file that holds the atom from the start, and goes on by
 * records that were accepted, each taking it up where the one before put it down: by a read or an exec into p, by a
 * write, an append or a fork into o. An exec turns a data atom into its running atom. There is a chain exactly where
 * the container holds the atom, and of all that there are it is the one by which the atom came first to be where it
 * stands. A last record that is blocked is followed as if it had been made. A trace up to its record n is `trace` with
 * length 8 * (n + 1). The call needs about 50 KiB of stack: see YASLAUREL_EXPLAIN_STACK.
 *
 * Returns 0: `file` is the number of the file where the chain begins, YASLAUREL_NO_CHAIN if there is none, and the end
 * of `steps`, from place `first` on, has the numbers of its records, counted from 0 in `trace` with the refused ones,
 * rising; `first` is `steps_len` where there are none. What stands before `first` stays, and so do links behind
 * YASLAUREL_LINKS_LENGTH of the trace's records; those before it are the call's own, whatever they held. Else 9, then 1
 * to 6, then 24, and everything that is lent keeps what it held.
 */
YASLAUREL_MUST_USE
uint32_t yaslaurel_explain(const uint8_t *image, size_t image_len, const uint8_t *trace, size_t trace_len,
                           size_t container, size_t atom, uint64_t *links, size_t links_len, uint64_t *steps,
                           size_t steps_len, uint64_t *file, uint64_t *first);

/*
 * Tells why the last record of a trace is answered alert or blocked: which rule forbids what the receiver holds, or
 * would hold, and for each of its mixtures the least atom of the tag that it lacks. With a chain for each of these
 * atoms (yaslaurel_explain of the receiver) it is a certificate, which can be checked by hand: FORMATS.md says how. The
 * rule governs the receiver: the permit rule of a file of the image, the rule of the user for whom a file was made, or
 * of a process one of those that it has from its last exec, or from that of the process which it was forked from: the
 * user's if it does not cover the tag, else a run rule. A run rule comes from a file of the image along a chain of its
 * own into the executed file, just before the exec: of the files in rising number whose run rule does not cover the
 * tag, the first with such a chain gives the rule, and the file where its chain begins its number and owner. The call
 * needs about 50 KiB of stack: see YASLAUREL_WHY_STACK.
 *
 * Returns 0: the front of `why` has YASLAUREL_WHY_LENGTH numbers (the places above), and the end of `steps` the record
 * numbers of the run rule's chain, as from yaslaurel_explain; its place is `steps_len` for the other origins. Else 9,
 * then 1 to 6, then 25, and everything that is lent keeps what it held.
 */
YASLAUREL_MUST_USE
uint32_t yaslaurel_why(const uint8_t *image, size_t image_len, const uint8_t *trace, size_t trace_len, uint64_t *links,
                       size_t links_len, uint64_t *steps, size_t steps_len, uint64_t *why, size_t why_len);

/*
 * Gives the verdict on an access matrix. `reads` and `writes` have one row for each of 1 to 8 subjects, bit k for object k
 * of 1 to 32. A flow from a to b is granted if a is b or one subject reads a and writes b; a composed flow is a chain of
 * granted ones.
 *
 * Returns 0 consistent, with 0 in all three numbers. 1 not consistent: `count` composed flows are not granted, the first
 * of them (smallest source, then smallest target) from object `source` to object `target`. Else 8, and the three numbers
 * keep what they held.
 */
YASLAUREL_MUST_USE
uint32_t yaslaurel_matrix_verdict(const uint32_t *reads, size_t reads_len, const uint32_t *writes, size_t writes_len,
                                  uint32_t objects, uint32_t *count, uint32_t *source, uint32_t *target);

/*
 * Tells whether an access matrix is silent. It is if no session from its derived policy (yaslaurel_matrix_policy), of reads,
 * writes and appends that the matrix allows, raises an alert; a write right allows writes and appends. The matrix is as for
 * yaslaurel_matrix_verdict. A silent matrix is consistent; a consistent one need not be silent, since two subjects can mix
 * in one object what each of them may write there.
 *
 * Returns 1 silent, 0 not silent. Else 8.
 */
YASLAUREL_MUST_USE
uint32_t yaslaurel_matrix_silent(const uint32_t *reads, size_t reads_len, const uint32_t *writes, size_t writes_len,
                                 uint32_t objects);

/*
 * Tells who can force the outcome of a game, in which a desk tries to bring the information of object `source` into object
 * `target` and a guard withdraws rights. The matrix is as for yaslaurel_matrix_verdict, with at most 3 subjects and 3
 * objects. In each of 1 to 4 rounds the desk makes one read or append whose right still stands, or passes; then the guard
 * withdraws one right for good, or passes. It may withdraw 0 to 2 rights in all. A read gives a subject what the object
 * holds, an append gives an object what the subject holds; any of them can be made, also one that brings the information
 * nowhere. The desk wins as soon as `target` holds it, before the guard replies.
 *
 * Returns 1 the desk can: `move` is its first winning move, by `subject` on `object`: reads (1) come before appends (3)
 * before the pass (0), each by smallest subject, then object. It is always a read. 0 the guard can prevent it, with 0 in
 * all three numbers. Else 8, then 23, and the three numbers keep what they held.
 */
YASLAUREL_MUST_USE
uint32_t yaslaurel_matrix_game(const uint32_t *reads, size_t reads_len, const uint32_t *writes, size_t writes_len,
                               uint32_t objects, uint32_t source, uint32_t target, uint32_t rounds,
                               uint32_t withdrawals, uint32_t *move, uint32_t *subject, uint32_t *object);

/*
 * Judges a proposal to withdraw rights of an access matrix. It is lent the old matrix, the rights that must stay as a
 * second one, and the proposed matrix, each as for yaslaurel_matrix_verdict. The conditions: 1 the proposal has no right
 * that the old matrix lacks; 2 it keeps all that must stay; 3 it is consistent; 4 it becomes inconsistent if any single
 * right that was withdrawn is put back alone.
 *
 * Returns 0 accepted, else the first condition that fails, 1 to 4. Else 8, for one of the matrices or where their counts
 * of subjects or of objects differ. A right that must stay and that the old matrix lacks is no fault of form: 1 or 2 fails
 * then.
 */
YASLAUREL_MUST_USE
uint32_t yaslaurel_matrix_judge(const uint32_t *old_reads, size_t old_reads_len, const uint32_t *old_writes,
                                size_t old_writes_len, uint32_t old_objects, const uint32_t *required_reads,
                                size_t required_reads_len, const uint32_t *required_writes, size_t required_writes_len,
                                uint32_t required_objects, const uint32_t *proposed_reads, size_t proposed_reads_len,
                                const uint32_t *proposed_writes, size_t proposed_writes_len, uint32_t proposed_objects);

/*
 * Writes the policy image that an access matrix stands for. It comes to the front of `out`; the bytes behind it stay. The
 * objects become files 0 and up, each with its own atom, then come the subjects as processes, and one unrestricted user.
 * An object may hold, for each subject that writes it, itself and what that subject reads.
 *
 * Returns the length of the image (YASLAUREL_HEADER_LENGTH or more), else 9, then 8.
 */
YASLAUREL_MUST_USE
uint32_t yaslaurel_matrix_policy(const uint32_t *reads, size_t reads_len, const uint32_t *writes, size_t writes_len,
                                 uint32_t objects, uint8_t *out, size_t out_len);

/*
 * Writes the policy image that a text of profiles stands for. It comes to the front of `out`; the bytes behind it stay.
 * Each path becomes a file, in order of first appearance, with its place as number and atom; behind the files come one
 * process, and one unrestricted user. The image is its own normal image.
 *
 * A text is any number of profiles. Its lines end with byte 10, and spaces stand where they are shown, one each:
 *
 *     profile PATH {
 *     PATH MODES,
 *     }
 *
 * There may be any number of middle lines. A path is / and 1 to 63 letters, digits, dots or slashes; modes are one or more
 * of r w a l m ix px Px ux Ux, run together. FORMATS.md says what each mode permits.
 *
 * Returns the length of the image (26 or more), else 9, then 16, then 17. 16 is judged for the whole text before 17.
 */
YASLAUREL_MUST_USE
uint32_t yaslaurel_profiles_policy(const uint8_t *text, size_t text_len, uint8_t *out, size_t out_len);

/*
 * Composes two policy images. The normal image of what they permit together comes to the front of `out`; the bytes behind it
 * stay. The two have the same containers, with the same kinds and atoms, and as many users. `consent` has YASLAUREL_ATOMS
 * bytes, 1 where the owner of that data atom consents and 0 where not; a running atom consents with its data atom.
 *
 * At each place for a rule a mixture of either rule's normal form enters if the other rule covers it, or if all its atoms
 * consent. Where both rules have the same owner he stays, else nobody owns the result. Two mixtures that only overlap do not
 * enter: without consent {0, 1} with {1, 2} gives a rule without mixtures, which covers not even the empty tag. Two accepted
 * images give the same answer and the same bytes in either order; an image with itself gives its normal image. `out` is other
 * memory than the images.
 *
 * Returns 0, and `length` is the length of the image (YASLAUREL_HEADER_LENGTH to YASLAUREL_OUTPUT_LENGTH). Else 9, then 1 to 6
 * for the first image, then 1 to 6 for the second, then 20, then 21, and `length` keeps what it held.
 */
YASLAUREL_MUST_USE
uint32_t yaslaurel_image_compose(const uint8_t *first, size_t first_len, const uint8_t *second, size_t second_len,
                                 const uint8_t *consent, size_t consent_len, uint8_t *out, size_t out_len, size_t *length);

#ifdef __cplusplus
}
#endif

/*
 * Makes an operation record. A number that does not fit its field, such as a process number over 65535, makes a record
 * that is refused with 7: it never names another container or user.
 *
 * Returns nothing. All 8 bytes of `out` are written.
 */
YASLAUREL_INLINE void yaslaurel_record(uint32_t code, uint32_t p, uint32_t o, uint32_t u,
                                    uint8_t out[YASLAUREL_RECORD_LENGTH])
{
    const uint32_t numbers[3] = {p, o, u};
    out[YASLAUREL_CODE_AT] = (uint8_t)(code <= 255u ? code : 0u);
    out[YASLAUREL_ZERO_AT] = 0;
    for (size_t i = 0; i < 3; i++) {
        /* 65534 is no container and no user, and does not stand for none. */
        const uint32_t number = numbers[i] <= 65535u ? numbers[i] : 65534u;
        out[YASLAUREL_PROCESS_AT + 2 * i] = (uint8_t)(number & 255u);
        out[YASLAUREL_PROCESS_AT + 2 * i + 1] = (uint8_t)(number >> 8);
    }
}

/*
 * Tells what a refusal means. Not for the answers of yaslaurel_matrix_verdict, yaslaurel_matrix_silent,
 * yaslaurel_matrix_game and yaslaurel_matrix_judge, whose 0 to 4 are no refusals, and not for a length.
 *
 * Returns a constant text of a few words, "no refusal" for 0, 19 and every number over 25.
 */
YASLAUREL_INLINE const char *yaslaurel_meaning(uint32_t refusal)
{
    static const char *const meanings[] = {
        "no refusal",
        "the image is too short or too long",
        "the image's leading number or the offsets and lengths of its sections are wrong",
        "a section's length is no multiple of its record, or it has too many records",
        "a rule record of the image is wrong",
        "a container record of the image is wrong",
        "a user's rule number in the image is wrong",
        "the operation record is malformed",
        "a matrix is malformed",
        "the session has a wrong length or the output is too short",
        "a session row that the record names is not well formed",
        "p is no process",
        "o is of the wrong kind",
        "o is not free",
        "the user is not declared",
        "a meet of two rules has over 8 mixtures",
        "the text of profiles is too long, breaks the grammar or profiles a path twice",
        "the profiles have over 32 paths, or a rule of over 8 mixtures",
        "a new file for another user than the process's own",
        "no refusal", /* 19 is an answer of the program month alone */
        "the two images have other containers or users, or the consent is not 32 bytes of 0 and 1",
        "a place of the composed policy has over 8 mixtures, or it needs over 256 rules",
        "the trace has no record, too many, one not accepted, or no alert at its end",
        "the game's objects, or one of its counts, are out of bounds",
        "there is no such container or atom",
        "the trace has no record, or its last is answered neither alert nor blocked",
    };
    return meanings[refusal < sizeof meanings / sizeof meanings[0] ? refusal : 0];
}

/*
 * Tells what an answer of yaslaurel_matrix_verdict means.
 *
 * Returns a constant text of a few words, that of the refusal for 8.
 */
YASLAUREL_INLINE const char *yaslaurel_verdict_meaning(uint32_t answer)
{
    switch (answer) {
    case YASLAUREL_CONSISTENT:
        return "consistent";
    case YASLAUREL_NOT_CONSISTENT:
        return "not consistent";
    case YASLAUREL_REFUSED_MATRIX:
        return yaslaurel_meaning(answer);
    default:
        return "no answer of yaslaurel_matrix_verdict";
    }
}

/*
 * Tells what an answer of yaslaurel_matrix_silent means.
 *
 * Returns a constant text of a few words, that of the refusal for 8.
 */
YASLAUREL_INLINE const char *yaslaurel_silence_meaning(uint32_t answer)
{
    switch (answer) {
    case YASLAUREL_NOT_SILENT:
        return "not silent";
    case YASLAUREL_SILENT:
        return "silent";
    case YASLAUREL_REFUSED_MATRIX:
        return yaslaurel_meaning(answer);
    default:
        return "no answer of yaslaurel_matrix_silent";
    }
}

/*
 * Tells what an answer of yaslaurel_matrix_game means.
 *
 * Returns a constant text of a few words, that of the refusal for 8 and 23.
 */
YASLAUREL_INLINE const char *yaslaurel_outcome_meaning(uint32_t answer)
{
    switch (answer) {
    case YASLAUREL_GUARD:
        return "the guard can prevent it";
    case YASLAUREL_DESK:
        return "the desk can force it";
    case YASLAUREL_REFUSED_MATRIX:
    case YASLAUREL_REFUSED_GAME:
        return yaslaurel_meaning(answer);
    default:
        return "no answer of yaslaurel_matrix_game";
    }
}

/*
 * Tells what an answer of yaslaurel_matrix_judge means.
 *
 * Returns a constant text of a few words, that of the refusal for 8.
 */
YASLAUREL_INLINE const char *yaslaurel_judgement_meaning(uint32_t answer)
{
    switch (answer) {
    case YASLAUREL_ACCEPTED:
        return "accepted";
    case YASLAUREL_RIGHT_ADDED:
        return "the proposal has a right that the old matrix lacks";
    case YASLAUREL_RIGHT_LOST:
        return "a right that must stay is withdrawn";
    case YASLAUREL_PROPOSAL_NOT_CONSISTENT:
        return "the proposal is not consistent";
    case YASLAUREL_NOT_MINIMAL:
        return "a right that was withdrawn may be put back";
    case YASLAUREL_REFUSED_MATRIX:
        return yaslaurel_meaning(answer);
    default:
        return "no answer of yaslaurel_matrix_judge";
    }
}

/*
 * Turn a null into an address that a call may be lent with length 0. Meant for hosts whose empty slices may be null, and
 * for slices of length 0 alone; a null with another length breaks what the host owes all the same.
 *
 * Returns the pointer itself, or for a null the address of one element that nobody uses.
 */
YASLAUREL_INLINE const uint8_t *yaslaurel_bytes(const uint8_t *bytes)
{
    static const uint8_t none = 0;
    return bytes != NULL ? bytes : &none;
}

YASLAUREL_INLINE uint64_t *yaslaurel_words(uint64_t *words)
{
    static uint64_t none = 0;
    return words != NULL ? words : &none;
}

YASLAUREL_INLINE const uint32_t *yaslaurel_rows(const uint32_t *rows)
{
    static const uint32_t none = 0;
    return rows != NULL ? rows : &none;
}

YASLAUREL_INLINE uint8_t *yaslaurel_output(uint8_t *out)
{
    static uint8_t none = 0;
    return out != NULL ? out : &none;
}

#endif
