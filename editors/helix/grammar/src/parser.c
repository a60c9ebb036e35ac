// A grammar of tree-sitter for sources of mos65, for the colours of Helix: a source is a list of tokens.
// It is written by hand, for version 13 of the interface, so the first part repeats that interface.
#include <stdbool.h>
#include <stddef.h>
#include <stdint.h>

typedef struct TSLexer TSLexer;
struct TSLexer {
  int32_t lookahead;
  uint16_t result_symbol;
  void (*advance)(TSLexer *, bool is_blank);
  void (*mark_end)(TSLexer *);
  uint32_t (*get_column)(TSLexer *);
  bool (*is_at_included_range_start)(const TSLexer *);
  bool (*eof)(const TSLexer *);
};
typedef union {
  struct { uint8_t type; uint16_t state; bool extra, repetition; } shift;
  struct { uint8_t type, child_count; uint16_t symbol; int16_t precedence; uint16_t production; } reduce;
  struct { uint8_t count; bool reusable; } entry;
} Action;
typedef struct { bool visible, named, supertype; } Metadata;
typedef struct { uint16_t lex_state, external_lex_state; } LexMode;
typedef struct {
  uint32_t version, symbol_count, alias_count, token_count, external_token_count, state_count, large_state_count,
    production_id_count, field_count;
  uint16_t max_alias_sequence_length;
  const uint16_t *parse_table, *small_parse_table;
  const uint32_t *small_parse_table_map;
  const Action *parse_actions;
  const char *const *symbol_names, *const *field_names;
  const void *field_map_slices, *field_map_entries;
  const Metadata *symbol_metadata;
  const uint16_t *public_symbol_map, *alias_map, *alias_sequences;
  const LexMode *lex_modes;
  bool (*lex_fn)(TSLexer *, uint16_t);
  bool (*keyword_lex_fn)(TSLexer *, uint16_t);
  uint16_t keyword_capture_token;
  struct {
    const bool *states;
    const uint16_t *symbol_map;
    void *(*create)(void);
    void (*destroy)(void *);
    bool (*scan)(void *, TSLexer *, const bool *);
    unsigned (*serialize)(void *, char *);
    void (*deserialize)(void *, const char *, unsigned);
  } external_scanner;
  const uint16_t *primary_state_ids;
} TSLanguage;

enum { END, COMMENT, LABEL, DEFINITION, NAME, MNEMONIC, REGISTER, DIRECTIVE, ORIGIN, NUMBER, CHARACTER, STRING,
       OPERATOR, OTHER, SOURCE, LIST, SYMBOLS };

static const char *const names[SYMBOLS] = {
  "end", "comment", "label", "definition", "name", "mnemonic", "register", "directive", "origin", "number",
  "character", "string", "operator", "other", "source_file", "list" };

// ---- tokens

static const char mnemonics[] =
  "ADC AND ASL BCC BCS BEQ BIT BMI BNE BPL BRK BVC BVS CLC CLD CLI CLV CMP CPX CPY DEC DEX DEY EOR INC INX INY JMP "
  "JSR LDA LDX LDY LSR NOP ORA PHA PHP PLA PLP ROL ROR RTI RTS SBC SEC SED SEI STA STX STY TAX TAY TSX TXA TXS TYA "
  "BRA PHX PHY PLX PLY STZ";

static int32_t capital(int32_t c) { return c >= 'a' && c <= 'z' ? c - 'a' + 'A' : c; }
static bool is_letter(int32_t c) { return capital(c) >= 'A' && capital(c) <= 'Z'; }
static bool is_digit(int32_t c) { return c >= '0' && c <= '9'; }
static bool is_word(int32_t c) { return is_letter(c) || is_digit(c) || c == '_'; }
static bool is_hex(int32_t c) { return is_digit(c) || (capital(c) >= 'A' && capital(c) <= 'F'); }
static bool is_bit(int32_t c) { return c == '0' || c == '1'; }
static bool is_blank(int32_t c) { return c == ' ' || c == '\t'; }
static bool is_text(int32_t c) { return c != '\n' && c != '"' && c != 0; }
static bool is_of_comment(int32_t c) { return c != '\n' && c != 0; }

static void next(TSLexer *it) { it->advance(it, false); }

static void pass(TSLexer *it, bool (*is_of)(int32_t)) {
  while (!it->eof(it) && is_of(it->lookahead)) next(it);
}

// Ends a token here. What is looked at behind it does not belong to it.
static bool token(TSLexer *it, uint16_t symbol) {
  it->mark_end(it);
  it->result_symbol = symbol;
  return true;
}

static bool is_mnemonic(const char word[4]) {
  for (const char *at = mnemonics;; at += 4) {
    if (at[0] == word[0] && at[1] == word[1] && at[2] == word[2]) return true;
    if (at[3] == 0) return false;
  }
}

// A word: a label before `:`, a name that is defined before `=`, or what it is by itself.
static bool word(TSLexer *it) {
  char start[4] = {0};
  size_t length = 0;
  for (; is_word(it->lookahead); length++, next(it))
    if (length < 3) start[length] = (char)capital(it->lookahead);
  it->mark_end(it);
  bool is_register = length == 1 && (start[0] == 'A' || start[0] == 'X' || start[0] == 'Y');
  it->result_symbol = length == 3 && is_mnemonic(start) ? MNEMONIC : is_register ? REGISTER : NAME;
  while (is_blank(it->lookahead)) next(it);
  if (it->lookahead == ':') it->result_symbol = LABEL;
  if (it->lookahead == '=') it->result_symbol = DEFINITION;
  return true;
}

// A prefix and the digits behind it; without one it is no number.
static bool number(TSLexer *it, bool (*is_of)(int32_t)) {
  next(it);
  if (!is_of(it->lookahead)) return token(it, OTHER);
  pass(it, is_of);
  return token(it, NUMBER);
}

static bool star(TSLexer *it) {
  next(it);
  token(it, OPERATOR);
  while (is_blank(it->lookahead)) next(it);
  if (it->lookahead == '=') it->result_symbol = ORIGIN;
  return true;
}

static bool character(TSLexer *it) {
  next(it);
  if (it->lookahead == '\n' || it->eof(it)) return token(it, OTHER);
  next(it);
  if (it->lookahead != '\'') return token(it, OTHER);
  next(it);
  return token(it, CHARACTER);
}

static bool string(TSLexer *it) {
  next(it);
  pass(it, is_text);
  if (it->lookahead != '"') return token(it, OTHER);
  next(it);
  return token(it, STRING);
}

static bool directive(TSLexer *it) {
  next(it);
  pass(it, is_letter);
  return token(it, DIRECTIVE);
}

static bool is_operator(int32_t c) {
  for (const char *at = "#!<>&|^/+-=:,()[]"; *at; at++)
    if (*at == c) return true;
  return false;
}

static bool lex(TSLexer *it, uint16_t state) {
  (void)state;
  while (!it->eof(it) && (is_blank(it->lookahead) || it->lookahead == '\n' || it->lookahead == '\r'))
    it->advance(it, true);
  if (it->eof(it)) return token(it, END);
  int32_t c = it->lookahead;
  if (is_letter(c)) return word(it);
  if (c == '$') return number(it, is_hex);
  if (c == '%') return number(it, is_bit);
  if (c == '*') return star(it);
  if (c == '\'') return character(it);
  if (c == '"') return string(it);
  if (c == '.') return directive(it);
  if (is_digit(c) || c == ';') {
    pass(it, c == ';' ? is_of_comment : is_digit);
    return token(it, c == ';' ? COMMENT : NUMBER);
  }
  next(it);
  return token(it, is_operator(c) ? OPERATOR : OTHER);
}

// ---- the grammar: source_file is nothing or a list, and a list is a token, or a list and a token

enum { ERROR_STATE, AT_START, BEHIND_FIRST, BEHIND_LIST, BEHIND_SOURCE, BEHIND_NEXT, STATES };
enum { SHIFTS, REDUCES, ACCEPTS, RECOVERS };
enum { RECOVER = 1, NO_LIST = 3, SHIFT_FIRST = 5, LIST_OF_ONE = 7, WHOLE = 9, SHIFT_NEXT = 11, LIST_OF_MORE = 13,
       ACCEPT = 15 };

#define ONE(is_reusable) {.entry = {1, is_reusable}}
#define SHIFT(to) {.shift = {.type = SHIFTS, .state = to}}
#define REDUCE(to, count) {.reduce = {.type = REDUCES, .child_count = count, .symbol = to}}
static const Action actions[] = {
  {.entry = {0, false}},
  [RECOVER] = ONE(false), {.shift = {.type = RECOVERS}},
  [NO_LIST] = ONE(true), REDUCE(SOURCE, 0),
  [SHIFT_FIRST] = ONE(true), SHIFT(BEHIND_FIRST),
  [LIST_OF_ONE] = ONE(true), REDUCE(LIST, 1),
  [WHOLE] = ONE(true), REDUCE(SOURCE, 1),
  [SHIFT_NEXT] = ONE(true), SHIFT(BEHIND_NEXT),
  [LIST_OF_MORE] = ONE(true), REDUCE(LIST, 2),
  [ACCEPT] = ONE(true), {.shift = {.type = ACCEPTS}},
};

// The action at the end of the source, and the one at each of the thirteen tokens.
#define ROW(at_end, at) at_end, at, at, at, at, at, at, at, at, at, at, at, at, at
static const uint16_t table[STATES][SYMBOLS] = {
  [ERROR_STATE] = {ROW(RECOVER, RECOVER)},
  [AT_START] = {ROW(NO_LIST, SHIFT_FIRST), [SOURCE] = BEHIND_SOURCE, [LIST] = BEHIND_LIST},
  [BEHIND_FIRST] = {ROW(LIST_OF_ONE, LIST_OF_ONE)},
  [BEHIND_LIST] = {ROW(WHOLE, SHIFT_NEXT)},
  [BEHIND_SOURCE] = {[END] = ACCEPT},
  [BEHIND_NEXT] = {ROW(LIST_OF_MORE, LIST_OF_MORE)},
};

#define SEEN {true, true, false}
static const Metadata metadata[SYMBOLS] = {
  [END] = {false, true, false}, SEEN, SEEN, SEEN, SEEN, SEEN, SEEN, SEEN, SEEN, SEEN, SEEN, SEEN, SEEN, SEEN,
  [SOURCE] = SEEN, [LIST] = {false, false, false} };
static const uint16_t same[SYMBOLS] = {0, 1, 2, 3, 4, 5, 6, 7, 8, 9, 10, 11, 12, 13, 14, 15};
static const uint16_t no_alias[1];
static const LexMode modes[STATES];

const TSLanguage *tree_sitter_mos65(void) {
  static const TSLanguage language = {
    .version = 13, .symbol_count = SYMBOLS, .token_count = SOURCE, .state_count = STATES, .large_state_count = STATES,
    .production_id_count = 1, .parse_table = &table[0][0], .parse_actions = actions, .symbol_names = names,
    .symbol_metadata = metadata, .public_symbol_map = same, .alias_map = no_alias, .alias_sequences = no_alias,
    .lex_modes = modes, .lex_fn = lex };
  return &language;
}
