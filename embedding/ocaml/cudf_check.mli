(** cudf_check: checks answers to CUDF 2.0 upgrade problems, through the library for C.

    docs/FORMAT.md and docs/RULES.md of cudf_check describe commands, options and reports. *)

(** The exit status of the program. *)
type status =
  | Yes
      (** a solution; [lint]: the problem is valid; [rank]: at least one is a solution; [cnf]: it was made; [refute]: the
          proof holds; help or the version *)
  | No  (** not a solution; [rank]: none is one, and not all say FAIL; [refute]: the proof has an error *)
  | Faulty  (** a document is malformed *)
  | Fail  (** the solution says FAIL; [rank]: all do *)
  | Usage  (** the words ask for nothing *)
  | Unread
      (** a document is longer than 256 MiB; [cnf], [refute]: the CNF has more than 4294967295 clauses or 2147483647
          variables *)
  | Memory  (** out of memory *)

(** The report, byte for byte the program's; with [Usage] the program's message; empty with [Unread] and [Memory]. *)
type answer = { status : status; report : string }

(** [run words documents] does what the program does for these words, such as [["check"; "--explain"; "--limit=3"]], with the
    documents in place of its files: the problem, then the solutions or the proof. The last one stands for the file of
    [--better-than=NAME], if that is one of the words. Lines begin with the [names] of the
    documents if ["-H"] is one of the words; documents beyond the last name have none. Raises no exception. *)
val run : ?names:string list -> string list -> string list -> answer
