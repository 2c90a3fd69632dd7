;;; pss-mode.el --- Colours for sources of portable stimulus  -*- lexical-binding: t; -*-

;; (add-to-list 'load-path "/path/to/editors") (require 'pss-mode)

;;; Code:

(defconst pss-mode-words
  `((,(regexp-opt '("component" "action" "buffer" "stream" "state" "resource" "enum" "function" "pool" "constraint" "activity" "exec" "body" "abstract" "rand" "import" "target" "input" "output" "lock" "share" "bind" "unique" "in" "if" "else" "repeat" "foreach" "match" "default" "select" "do" "with" "parallel" "schedule" "sequence" "join_branch" "join_none" "join_select") 'symbols)
     . font-lock-keyword-face)
    (,(regexp-opt '("int" "bit" "bool" "void") 'symbols) . font-lock-type-face)
    (,(regexp-opt '("true" "false" "prev" "initial" "instance_id") 'symbols) . font-lock-constant-face)
    (,(regexp-opt '("array" "as" "assert" "atomic" "bins" "break" "chandle" "class" "compile" "const" "continue" "covergroup" "coverpoint" "cross" "declaration" "disable" "dist" "dynamic" "export" "extend" "file" "float32" "float64" "forall" "has" "header" "iff" "ignore_bins" "illegal_bins" "init" "init_down" "init_up" "inout" "instance" "join_first" "list" "map" "null" "override" "package" "post_solve" "pre_body" "pre_solve" "private" "protected" "public" "pure" "randomize" "ref" "replicate" "return" "run_end" "run_start" "set" "solve" "static" "string" "struct" "super" "symbol" "this" "type" "typedef" "while" "yield") 'symbols)
     . font-lock-warning-face)
    ("\\_<\\(?:component\\|action\\|buffer\\|stream\\|state\\|resource\\|enum\\)[ \t]+\\([A-Za-z_][A-Za-z_0-9]*\\)"
     1 font-lock-type-face)))

(defvar pss-mode-syntax-table
  (let ((table (make-syntax-table)))
    (modify-syntax-entry ?_ "_" table)
    (modify-syntax-entry ?/ ". 124b" table)
    (modify-syntax-entry ?* ". 23" table)
    (modify-syntax-entry ?\n "> b" table)
    table))

;;;###autoload
(define-derived-mode pss-mode prog-mode "PSS"
  "Mode for sources of portable stimulus."
  (setq-local comment-start "// ")
  (setq-local comment-end "")
  (setq-local font-lock-defaults '(pss-mode-words)))

;;;###autoload
(add-to-list 'auto-mode-alist '("\\.pss\\'" . pss-mode))

(provide 'pss-mode)
;;; pss-mode.el ends here
