# Studies: looks that are kept in a file. The file has positions of hypotheses and no names, so the canonical text of the case is
# kept beside it, and a case with another text is refused. So are labels that are not the program's names. How many looks were kept
# stands there too, so that a file that is lost does not begin anew.

graph_study <- function(case, store, looks = NULL, refused = c("stop", "keep")) {
  refused <- chosen(refused, c("stop", "keep"), "refused")
  text <- study_text(case)
  canon <- program_answer("canon", handed(text$text, text$graph, source = "case: the text"))
  graph <- if (is.null(text$graph)) graph_of_case(canon) else text$graph
  if (length(canon$stages) == 0) stop_at("case", "a study has a staged case")
  if (any(startsWith(canon$stages, "arrive "))) stop_at("case", "a study begins without looks: they are given to `looks`")
  store <- checked_store(store)
  looks <- read_looks(graph, looks, text$stages)
  hold_case(canon$lines, store)
  hold_labels(graph, store)
  case <- handed(text$text, graph, looks = looks)
  trial <- tried(case, store, looks$read)
  hold_count(store, trial$records)
  if (refused == "stop") hold_looks(new_study(graph, store, looks, trial)$refused, looks)
  notes <- other_decisions(looks$read, looks$label, function(read) tried(case, store, read)$rejects)
  report <- run_study(case, store, looks$read)
  write_count(store, report$taken)
  new_study(graph, store, looks, report, notes)
}

# The text of a case, and its graph if it is known.
study_text <- function(case) {
  if (inherits(case, "welungad_stages")) {
    check_unchanged(case)
    return(list(text = case$case, graph = case$graph, stages = case$plan$stages))
  }
  if (!is.character(case) && !is.raw(case)) stop_at("case", "a result of graph_stages, or the text of a case is needed")
  bytes <- bytes_of(case, "case")
  if (any(bytes == 0)) stop_at("case", "it has a byte 0")
  list(text = rawToChar(bytes), graph = NULL)
}

# Stops if a staged test was changed by hand, since its text alone is read.
check_unchanged <- function(x) {
  check_parts(x, c("graph", "alpha", "plan", "looks", "rejections", "rejected", "read", "case", "report"), "a staged test", "case")
  if (!is_case_of(x)) stop_at("case", "its level or its graph was changed: call graph_stages with the new one")
}

graph_of_case <- function(case) list(names = case$names, labels = case$names)

checked_store <- function(store) {
  if (!is.character(store) || length(store) != 1 || is.na(store) || store %in% c("", ":memory:") || startsWith(store, "file:")) {
    stop_at("store", "the name of a file is needed")
  }
  # the program reads no other words, and R would hand it a name with "<ff>" in place of such a byte
  own <- if (Encoding(store) == "unknown") store else enc2native(store)
  if (Encoding(store) == "bytes" || !validUTF8(own)) stop_at("store", quoted(store), " is not the name of a file in UTF-8")
  store <- path.expand(store)
  if (!dir.exists(dirname(store))) stop_at("store", "there is no folder ", quoted(dirname(store)))
  if (dir.exists(store)) stop_at("store", quoted(store), " is a folder")
  store
}

case_file <- function(store) paste0(store, ".case")

# Stops if the file of looks was made for another case; writes the case beside it if it is the first call.
hold_case <- function(lines, store) {
  place <- case_file(store)
  if (!file.exists(place)) {
    if (file.exists(store)) {
      stop_at("store", store, " has no ", place, " beside it, so it is not known for which case it was made")
    }
    write_count(store, 0L)
    write_new(charToRaw(paste0(lines, "\n", collapse = "")), place)
  }
  known <- read_beside(place, function(place) readLines(place, warn = FALSE, encoding = "UTF-8"))
  if (!identical(known, lines)) {
    own <- words_after(known, "hypotheses")
    stop_at("store", basename(store), " was made for a case with ",
      if (identical(own, words_after(lines, "hypotheses"))) difference_of(known, lines) else paste("hypotheses", paste(own, collapse = " ")))
  }
}

# ---- how many looks were kept

count_file <- function(store) paste0(store, ".kept")

# How many looks were kept, as it stands beside the file of looks; NA if nothing says so, as of a file of an earlier release.
count_of_looks <- function(store) {
  place <- count_file(store)
  if (!file.exists(place)) return(NA_integer_)
  line <- read_beside(place, function(place) readLines(place, n = 1L, warn = FALSE))
  if (length(line) != 1 || !is_whole(line)) stop_at("store", place, " does not say how many looks were kept")
  as.integer(line)
}

# Writes how many looks are kept, as a whole.
write_count <- function(store, count) {
  place <- count_file(store)
  part <- tempfile("welungad-", dirname(place))
  on.exit(unlink(part))
  write_whole(charToRaw(paste0(whole_text(count), "\n")), part)
  file.rename(part, place)
}

# Stops if the file of looks is not there, or has fewer looks than were kept in it.
hold_count <- function(store, found) {
  kept <- count_of_looks(store)
  if (!file.exists(store) && !identical(kept, 0L)) {
    stop_at("store", store, " is not there, and ", case_file(store), " is: ",
      if (is.na(kept)) "the looks that were kept are" else if (kept == 1) "the look that was kept is" else paste("the", kept, "looks that were kept are"),
      " lost unless it is put back. To begin anew, remove the files beside it")
  }
  if (!is.na(kept) && found < kept) {
    stop_at("store", store, " has ", count_of(found, "look"), ", and ", whole_text(kept), " were kept: it is another file, or an earlier copy")
  }
}

# ---- looks that are not taken

# The answer to looks on a copy of the file of looks, which itself stays as it is.
tried <- function(case, store, read) {
  room <- tempfile("welungad-")
  dir.create(room)
  on.exit(unlink(room, recursive = TRUE))
  copy <- file.path(room, "looks")
  for (end in c("", "-wal")) if (file.exists(paste0(store, end)) && !file.copy(paste0(store, end), paste0(copy, end))) {
    stop_at("store", paste0(store, end), " can't be read")
  }
  run_study(case, copy, read)
}

reasons <- c(stage = "there is no such stage", known = "a p-value of it at this stage is kept already",
  range = "its p-value is not from 0 to 1, with a denominator up to 10^30")

# Stops if a look would not be taken, before any is.
hold_looks <- function(refused, looks) {
  if (nrow(refused) == 0) return(invisible())
  why <- ifelse(refused$why %in% names(reasons), reasons[refused$why], refused$why)
  given <- ifelse(refused$why == "range", paste0(" (", looks$read$given[refused$row], ")"), "")
  texts <- paste0("row ", refused$row, ", ", refused$hypothesis, " at stage ", refused$stage, ": ", why, given)
  stop(structure(class = c("welungad_looks_refused", "error", "condition"), list(refused = refused, call = NULL,
    message = paste0("looks: not taken, so none of this call is: ", listed(texts, 4L), ". With refused = \"keep\" the others are"))))
}

# Stops if the file of looks was made for other labels: names that are made of labels can be those of others. Labels that are the
# program's names are in the case.
hold_labels <- function(graph, store) {
  if (identical(graph$labels, graph$names)) return(invisible())
  place <- paste0(store, ".labels")
  bytes <- bytes_of_labels(graph$labels)
  if (!file.exists(place)) write_new(bytes, place)
  known <- read_beside(place, function(place) readBin(place, "raw", file.size(place)))
  if (!identical(known, bytes)) stop_at("store", basename(store), " was made for the hypotheses ", listed(quoted(labels_in(known)), 16L))
}

# Labels as a file has them, each ended by a byte 0.
bytes_of_labels <- function(labels) unlist(lapply(enc2utf8(labels), function(label) c(charToRaw(label), as.raw(0))))

labels_in <- function(bytes) {
  texts <- strsplit(rawToChar(replace(bytes, bytes == 0, charToRaw("\n"))), "\n", fixed = TRUE)[[1]]
  Encoding(texts) <- "UTF-8"
  texts
}

# Reads a file beside that of the looks.
read_beside <- function(place, read) {
  tryCatch(suppressWarnings(read(place)), error = function(e) stop_at("store", place, " can't be read"))
}

# Writes a file that is not there, as a whole or not at all. One that is there meanwhile stays where files can have links; elsewhere it is
# replaced.
write_new <- function(bytes, place) {
  part <- tempfile("welungad-", dirname(place))
  on.exit(unlink(part))
  write_whole(bytes, part)
  # not every file system has links
  linked <- suppressWarnings(file.link(part, place))
  if (!linked && !file.exists(place)) file.rename(part, place)
}

# The first line in which the case of a file is another one.
difference_of <- function(known, lines) {
  at <- which(known[seq_along(lines)] != lines | is.na(known[seq_along(lines)]))
  if (length(at) == 0) return("more lines")
  paste0("the line ", quoted(known[at[1]]), ", and not ", quoted(lines[at[1]]))
}

# The answer of the program, which alone opens files.
program_answer <- function(words, case) {
  old <- options(welungad.way = "program")
  on.exit(options(old))
  if (!nzchar(program_path())) stop("a study needs the program welungad: ", how_to_find_program, call. = FALSE)
  ask(words, case)
}

# The answer to looks with these p-values, and to `show` after them.
run_study <- function(case, store, read) {
  looks <- case$looks
  commands <- c(if (length(read)) paste("look", looks$name, whole_text(looks$stage), read$read), "show")
  file <- tempfile("welungad-commands-")
  on.exit(unlink(file))
  write_whole(charToRaw(paste0(commands, "\n", collapse = "")), file)
  program_answer(c("study", file, paste0("--store=", store)), case)
}

new_study <- function(graph, store, looks, report, notes = character()) {
  labelled_rows <- function(columns) label_of(columns[2, ], graph)
  refused <- as.integer(sub(":$", "", report$refused[2, ]))
  structure(list(
    graph = graph,
    store = store,
    alpha = report$alpha,
    records = report$records,
    taken = report$taken,
    looks = table_of(hypothesis = labelled_rows(report$looks), stage = as.integer(report$looks[3, ]), p = report$looks[4, ]),
    rejections = table_of(look = report$records + report$arrival, hypothesis = labelled_rows(report$rejects),
      stage = as.integer(report$rejects[4, ]), weight = report$rejects[6, ]),
    refused = table_of(row = refused, hypothesis = looks$label[refused], stage = looks$stage[refused], why = report$refused[3, ]),
    rejected = stats::setNames(report$rejected, graph$labels),
    notes = c(notes, zero_notes(looks$read, looks$label)),
    report = report$lines
  ), class = "welungad_study")
}

as.data.frame.welungad_study <- function(x, ...) {
  check_dots(..., allowed = frame_arguments)
  x$looks
}

format.welungad_study <- function(x, ...) {
  paste0("Study of ", count_of_hypotheses(length(x$graph$names)), " in ", x$store, ", level ", level_text(x$alpha))
}

print.welungad_study <- function(x, digits = 6, ...) {
  check_dots(...)
  cat(format(x), "\n", sep = "")
  cat("Looks: ", x$records, " before this call, ", x$taken, " now\n", sep = "")
  table <- x$rejections
  if (nrow(table)) {
    cat("Rejected by the looks of this call:\n")
    write_table(cbind(look = table$look, hypothesis = table$hypothesis, stage = table$stage,
      weight = shown(double_of(table$weight), digits)))
  }
  for (i in seq_len(nrow(x$refused))) {
    cat("Not taken: row ", x$refused$row[i], ", ", x$refused$hypothesis[i], " at stage ", x$refused$stage[i], ": ",
      x$refused$why[i], "\n", sep = "")
  }
  print_rejected(x)
  print_notes(x$notes)
  invisible(x)
}
