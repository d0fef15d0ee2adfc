;;; alphaprolog-mode.el --- Highlighting of αProlog -*- lexical-binding: t -*-

;;; Commentary:
;; The tokens of αProlog (docs/LANGUAGE.md).  To use it:
;;   (load "/path/to/editors/emacs/alphaprolog-mode.el")

;;; Code:

(defvar alphaprolog-mode-syntax-table
  (let ((table (make-syntax-table)))
    (modify-syntax-entry ?% "<" table)
    (modify-syntax-entry ?\n ">" table)
    (modify-syntax-entry ?_ "w" table)
    (dolist (mark '(?\\ ?# ?= ?| ?\; ?: ?? ?- ?> ?. ?, ?\" ?' ?` ?~ ?$))
      (modify-syntax-entry mark "." table))
    table)
  "Syntax table of `alphaprolog-mode'.")

(defconst alphaprolog-font-lock-keywords
  `((,(regexp-opt '("name_type" "type" "pred" "new" "exists" "swap") 'words)
     . font-lock-keyword-face)
    ("\\_<[A-Z_]\\w*\\_>" . font-lock-variable-name-face)
    ("\\_<pred\\s-+\\(\\w+\\)" 1 font-lock-type-face)
    ("\\_<[[:digit:]]\\w*" . font-lock-warning-face)
    ("\\(\\_<\\w+\\_>\\)\\s-*:\\(?:[^-]\\|$\\)" 1 font-lock-type-face)
    ("\\(\\_<\\w+\\_>\\)\\s-*\\\\" 1 font-lock-constant-face)
    ("\\(\\_<\\w+\\_>\\)\\s-*(" 1 font-lock-function-name-face)
    (":-\\|\\?-\\|->\\|:" . font-lock-preprocessor-face)
    ("[\\#=|;]" . font-lock-builtin-face)
    ("[^[:space:][:word:].,()]" (0 (alphaprolog-wrong-face (match-beginning 0)))))
  "What `alphaprolog-mode' highlights.  The first that fits a place counts.")

(defun alphaprolog-wrong-face (place)
  "A warning where the character at PLACE begins no token."
  (unless (memq (char-after place) '(?\[ ?\])) 'font-lock-warning-face))

;;;###autoload
(define-derived-mode alphaprolog-mode prog-mode "αProlog"
  "Major mode for αProlog."
  (setq-local comment-start "% ")
  (setq-local comment-start-skip "%+\\s-*")
  (setq-local comment-end "")
  (setq-local font-lock-defaults '(alphaprolog-font-lock-keywords nil nil)))

;;;###autoload
(add-to-list 'auto-mode-alist '("\\.apl\\'" . alphaprolog-mode))

(provide 'alphaprolog-mode)
;;; alphaprolog-mode.el ends here
