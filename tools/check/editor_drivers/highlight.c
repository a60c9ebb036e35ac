/* Prints what a query finds in a source by the grammar for Helix, a line each: its name, and its text.
   The first line has the sort of the root, and whether the tree has an error. usage: highlight QUERY SOURCE */
#include <stdio.h>
#include <stdlib.h>
#include <tree_sitter/api.h>

const TSLanguage *tree_sitter_mos65(void);

static char *read_file(const char *path, uint32_t *length) {
  FILE *file = fopen(path, "rb");
  char *text = malloc(1 << 20);
  if (!file || !text) exit(2);
  *length = (uint32_t)fread(text, 1, 1 << 20, file);
  fclose(file);
  return text;
}

int main(int count, char **words) {
  uint32_t query_length, length, at, index;
  TSQueryError error;
  if (count != 3) return 2;
  char *query_text = read_file(words[1], &query_length), *text = read_file(words[2], &length);
  TSParser *parser = ts_parser_new();
  if (!ts_parser_set_language(parser, tree_sitter_mos65())) return 3;
  TSNode root = ts_tree_root_node(ts_parser_parse_string(parser, NULL, text, length));
  TSQuery *query = ts_query_new(tree_sitter_mos65(), query_text, query_length, &at, &error);
  if (!query) return 4;
  printf("%s %d\n", ts_node_type(root), ts_node_has_error(root));
  TSQueryCursor *cursor = ts_query_cursor_new();
  ts_query_cursor_exec(cursor, query, root);
  for (TSQueryMatch match; ts_query_cursor_next_capture(cursor, &match, &index);) {
    TSQueryCapture capture = match.captures[index];
    uint32_t from = ts_node_start_byte(capture.node), to = ts_node_end_byte(capture.node), size;
    printf("%s %.*s\n", ts_query_capture_name_for_id(query, capture.index, &size), (int)(to - from), text + from);
  }
  return 0;
}
