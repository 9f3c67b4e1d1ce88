# Takes board.c and board.h from the clone into src, for a source package.
for (file in c("board.c", "board.h")) {
  if (!file.copy(file.path("../../portable", file), "src", overwrite = TRUE)) stop(file, " can't be copied to src")
}
