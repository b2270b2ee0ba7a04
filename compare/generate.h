/* Cases from a seed: papers (a sheet, a start or none, and an answer walked on them), their texts, and what is lent to the hall. */
#ifndef GENERATE_H
#define GENERATE_H

#include "lent.h"
#include "random.h"
#include "result.h"

enum { LONGEST_DRAFT = 80000 };

/* A sheet's tables and program, and the steps taken on them so far. */
struct paper {
    struct random random;
    struct tables tables;
    struct program program;
    struct configuration start;       /* where the walk begins, nothing up without a start */
    struct configuration configuration;
    struct step step[STEPS];
    unsigned steps;
    bool started;
    unsigned stride;                  /* tickets rise by 1 to this, where the sheet has tickets */
    unsigned aim;                     /* the number that the last step shall be refused with, 0 for none */
    bool halfway;                     /* whether 31 is sought at a place with only some of its transitions ended */
    bool full;                        /* whether 64 connections are to stand before the aim is sought */
    unsigned crowd;                   /* how many instances the walk adds */
    unsigned verbs[INSTRUCTION_VERBS]; /* weights of the instructions */
    unsigned moves;                   /* percent of steps that are moves */
};

struct draft { uint8_t bytes[LONGEST_DRAFT]; size_t length; };
struct pair { struct draft sheet, start, answer; bool started, ticketed; size_t room; };

/* A lawful type near the limits with long lists, and a lawful type well below them. */
void draw_great_type(struct random *random, struct type *type);
void draw_little_type(struct random *random, struct type *type);

/* Types and depth, in a manner that helps towards the paper's aim. */
void draw_tables(struct paper *paper);

/* Lawful tables at random and a walk of no steps, in a manner that helps towards the aim. */
void start_paper(struct paper *paper, unsigned aim, bool ticketed);

/* Takes a step that is allowed, or one that is refused with that number; false where none was found. An instruction
   that the step needs is appended to the program, all of whose instructions are done. */
bool draw_allowed(struct paper *paper);
bool draw_refused(struct paper *paper, unsigned number);

/* A state that the tables permit, reached by a walk or not: the walk goes on from there. */
void draw_start(struct paper *paper);

/* Makes a use port active in the start without an active provide port behind it, where it can: 50. */
void unserve_start(struct paper *paper);

/* A paper walked to its end, or to a step refused with the aim where one was found; with a start where `started` says so, and
   with tickets where `ticketed` does. */
void draw_paper(struct paper *paper, unsigned aim, bool ticketed);

/* A program that names alone allow, whatever becomes of queues and tokens, or up to an instruction refused with the aim. */
void draw_by_names(struct paper *paper, unsigned aim, bool ticketed);

/* A ticket above all that were pushed on an instance, where there is one. */
unsigned draw_ticket(struct paper *paper, const struct instance *instance);

/* An instruction and a step within the limits of their lines, lawful or not at their turn. */
struct instruction draw_instruction(struct paper *paper, unsigned noise);
struct step draw_step(struct paper *paper);

/* A `con` that could stand; false where none was found. */
bool draw_connection(struct paper *paper, struct instruction *con);

void write_sheet(const struct paper *paper, struct draft *text);
void write_answer(const struct paper *paper, struct draft *text);

/* The start as it is, or spoilt towards a number of its own: 1 to 5, 50. */
void write_start(struct paper *paper, struct draft *text, unsigned aim);

struct texts texts_of(const struct pair *pair);

/* A room for the judge's report: mostly the program's own; else around the report's length, where 6 begins. */
size_t draw_room(struct random *r, const struct pair *pair, bool short_room, judging *judge);

void cut_to_case(struct draft *text);

void generate_pair(uint64_t seed, uint64_t index, struct pair *pair);
/* A sheet and perhaps a start; no answer. So many of a hundred programs have nothing wrong by aim. */
void generate_program(uint64_t seed, uint64_t index, struct pair *pair, unsigned sound);
void generate_plan(uint64_t seed, uint64_t index, struct pair *pair);
void generate_lent(uint64_t seed, uint64_t index, struct lent *lent);

#endif
