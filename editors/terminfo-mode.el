;;; terminfo-mode.el --- Major mode for terminfo source  -*- lexical-binding: t -*-

;; Version: 1.1.0
;; Package-Requires: ((emacs "27.1"))
;; SPDX-License-Identifier: MIT OR Apache-2.0

;;; Commentary:

;; Faces, comments and an outline for terminfo source, and the language server ti-lsp by eglot (a
;; part of Emacs 29; the package elpa-eglot for Emacs 28). With this file on the load path:
;;
;;     (require 'terminfo-mode)

;;; Code:

(defgroup terminfo nil "Terminfo source." :group 'languages)

(defcustom terminfo-server '("ti-lsp")
  "The command of the language server, or nil if none is to be started."
  :type '(repeat string))

(defvar font-lock-beg)
(defvar font-lock-end)
(defvar eglot-server-programs)
(declare-function eglot-ensure "eglot")

(defconst terminfo-mode--entry "^[^ \t\n#]"
  "What an entry begins with.")

(defconst terminfo-mode--faces
  [nil font-lock-warning-face font-lock-keyword-face font-lock-builtin-face font-lock-preprocessor-face
       font-lock-constant-face font-lock-warning-face]
  "The faces of the groups of `terminfo-mode--piece'.")

(defconst terminfo-mode--piece
  (concat
   ;; an escape of which nothing can come
   "\\(\\\\[4-7][0-7][0-7]\\|\\\\[^Eenlrtbfsa^\\\\,:0-7\n]\\)"
   ;; codes of formats: of conditions, and others
   "\\|\\(%[?te;]\\)"
   "\\|\\(%\\(?:p[1-9]\\|[Pg][A-Za-z]\\|{[0-9]+}\\|'\\(?:\\\\\\(?:[0-7]\\{1,3\\}\\|.\\)\\|\\^.\\|[^\\\\^\n]\\)'"
   "\\|\\(?::[-+# ]*\\|[# ]*\\)[0-9]*\\(?:\\.[0-9]*\\)?[doxXs]\\|[%clmAOi+*/&|=><!~^-]\\)\\)"
   "\\|\\(\\$<[0-9]\\{1,5\\}\\(?:\\.[0-9]\\)?\\(?:\\*/?\\|/\\*?\\)?>\\)"
   "\\|\\(\\\\[0-7]\\{1,3\\}\\|\\\\[^0-7\n]\\|\\^[ -+.-~-]\\)"
   ;; a control of which nothing can come, unless it goes on in the next line
   "\\|\\(\\^\\)."
   "\\|,\\|%[^\\,\n]?\\|^[^ \t\n].*")
  "The next piece of a string that is more than itself.
A comma or a head line ends the string.")

(defconst terminfo-mode--begun
  "%\\(?:'\\\\?.?\\|{[0-9]*\\|[pPg]\\|:?[-+# ]*[0-9]*\\(?:\\.[0-9]*\\)?\\)$"
  "A code that may go on in the next line.")

(defconst terminfo-mode--format "=\\(?:\\^\\\\\\|\\\\.\\|[^,\\\\\n]\\)*?%p[1-9]"
  "The value of a string that takes parameters.")

(defun terminfo-mode--paint (group face)
  "Give what GROUP of the last match matches a FACE."
  (when (match-beginning group)
    (put-text-property (match-beginning group) (match-end group) 'face face)))

(defun terminfo-mode--head ()
  "Give the names of a head line their faces, and go to their end."
  (let ((end (progn (looking-at "[^,\n]*") (match-end 0))))
    (while (re-search-forward "[^|\n]+" end t)
      (let ((is-about (and (= (point) end) (eq (char-before (match-beginning 0)) ?|))))
        (terminfo-mode--paint 0 (if is-about 'font-lock-doc-face 'font-lock-function-name-face))))
    (goto-char (max end (1+ (line-beginning-position))))))

(defun terminfo-mode--value (is-format)
  "Give the pieces of a string their faces, and go to its end.
Unless IS-FORMAT, a `%' may mean itself."
  (let ((start (point)) (is-open t))
    (while (and is-open (re-search-forward terminfo-mode--piece nil 'move))
      (let ((at (match-beginning 0)) (group 1))
        (while (and (< group 7) (not (match-beginning group))) (setq group (1+ group)))
        (cond ((and (eq (char-after at) ?^) (eq (char-before at) ?%)) (goto-char (1+ at)))
              ((< group 7)
               (terminfo-mode--paint group (aref terminfo-mode--faces group))
               (goto-char (match-end group)))
              ((eq (char-after at) ?%)
               (if (and is-format (save-excursion (goto-char at) (not (looking-at terminfo-mode--begun))))
                   (terminfo-mode--paint 0 'font-lock-warning-face)
                 (goto-char (1+ at))))
              ((not (and (eq (char-after at) ?#) (save-excursion (goto-char at) (bolp))))
               (setq is-open nil)
               (goto-char at)))))
    (font-lock-fillin-text-property start (point) 'face 'font-lock-string-face)))

(defun terminfo-mode--item ()
  "Give an item its faces, and go to its end."
  (cond ((looking-at "\\.\\(?:\\\\.\\|[^\\\\,]\\)*?\\(?:,\\|\n[^ \t\n#]\\|\\'\\)")
         (let ((end (match-end 0)))
           (put-text-property (point) (if (eq (char-before end) ?,) (1- end) end) 'face 'font-lock-comment-face)
           (goto-char end)
           (unless (eq (char-before) ?,) (beginning-of-line))))
        ((looking-at "#[^,\n]*")
         (terminfo-mode--paint 0 'font-lock-warning-face)
         (goto-char (match-end 0)))
        ((looking-at "\\(use\\)=\\([^,\n]*\\)")
         (terminfo-mode--paint 1 'font-lock-keyword-face)
         (terminfo-mode--paint 2 'font-lock-function-name-face)
         (goto-char (match-end 0)))
        ((looking-at "\\([^,#=\n]+\\)#\\(?:\\(0[xX][0-9A-Fa-f]+\\|0[0-7]*\\|[1-9][0-9]*\\)[ \t]*\\(?:,\\|$\\)\\|\\([^,\n]*\\)\\)")
         (terminfo-mode--paint 1 'font-lock-variable-name-face)
         (terminfo-mode--paint 2 'font-lock-constant-face)
         (terminfo-mode--paint 3 'font-lock-warning-face)
         (goto-char (match-end 0)))
        ((looking-at "\\([^,#=\n]*\\)=")
         (terminfo-mode--paint 1 'font-lock-variable-name-face)
         (goto-char (1- (match-end 0)))
         (let ((is-format (looking-at terminfo-mode--format)))
           (forward-char)
           (terminfo-mode--value is-format)))
        ((looking-at "\\([^,#=\n]*?\\)\\(@?\\)[ \t]*\\(?:,\\|$\\)")
         (terminfo-mode--paint 1 'font-lock-variable-name-face)
         (terminfo-mode--paint 2 'font-lock-keyword-face)
         (goto-char (max (1+ (point)) (match-end 0))))
        (t (forward-char))))

(defun terminfo-mode--fontify (limit)
  "Give all from point to LIMIT its faces.
The answer is nil, since nothing is left for font-lock."
  (while (progn (skip-chars-forward " \t\n," limit) (< (point) limit))
    (cond ((not (bolp)) (terminfo-mode--item))
          ((eq (char-after) ?#) (forward-line))
          (t (terminfo-mode--head))))
  nil)

(defun terminfo-mode--extend ()
  "Have font-lock look at whole entries. Whether that is more than it would."
  (let ((before (cons font-lock-beg font-lock-end)))
    (save-excursion
      (goto-char font-lock-beg)
      (end-of-line)
      (setq font-lock-beg (if (re-search-backward terminfo-mode--entry nil t) (point) (point-min)))
      (goto-char font-lock-end)
      (unless (bolp) (forward-line))
      (setq font-lock-end (if (re-search-forward terminfo-mode--entry nil t) (match-beginning 0) (point-max))))
    (not (equal before (cons font-lock-beg font-lock-end)))))

(defconst terminfo-mode--keywords '((terminfo-mode--fontify))
  "What font-lock does of terminfo source.")

(defvar terminfo-mode-syntax-table
  (let ((table (make-syntax-table)))
    (dolist (letter '(?\" ?\' ?\\ ?$ ?% ?& ?| ?= ?, ?#)) (modify-syntax-entry letter "." table))
    (dolist (letter '(?+ ?- ?_ ?.)) (modify-syntax-entry letter "_" table))
    (modify-syntax-entry ?\n ">" table)
    table)
  "The syntax of terminfo source, but for the comments.")

;;;###autoload
(define-derived-mode terminfo-mode prog-mode "Terminfo"
  "Major mode for terminfo source."
  (setq-local comment-start "# ")
  (setq-local comment-start-skip "^#+[ \t]*")
  (setq-local comment-style 'plain)
  (setq-local indent-tabs-mode t)
  (setq-local tab-width 8)
  (setq-local syntax-propertize-function (syntax-propertize-rules ("^#" (0 "<"))))
  (setq-local imenu-generic-expression '((nil "^\\([^ \t\n#,|][^,|\n]*\\)" 1)))
  (setq-local font-lock-defaults '(terminfo-mode--keywords))
  (add-hook 'font-lock-extend-region-functions #'terminfo-mode--extend nil t))

(defun terminfo-mode--is-entry ()
  "Whether this is a file *.info whose first line but comments is a head line."
  (and buffer-file-name
       (string-suffix-p ".info" buffer-file-name)
       (looking-at "\\(?:#.*\n\\|[ \t]*\n\\)*[^ \t\n,|#/]+\\(?:|[^,\n]*\\)?,")))

;;;###autoload
(dolist (pattern '("\\.ti\\'" "\\.terminfo\\'" "/terminfo\\.src\\'"))
  (add-to-list 'auto-mode-alist (cons pattern 'terminfo-mode)))
(add-to-list 'magic-fallback-mode-alist '(terminfo-mode--is-entry . terminfo-mode))

(defun terminfo-mode--connect ()
  "Start the language server, if there is one, and eglot."
  (cond ((null terminfo-server))
        ((not (executable-find (car terminfo-server)))
         (message "%s is not found, so terminfo source is not checked" (car terminfo-server)))
        ((require 'eglot nil t) (eglot-ensure))))

(with-eval-after-load 'eglot
  (add-to-list 'eglot-server-programs (cons 'terminfo-mode (lambda (&rest _) terminfo-server))))
(add-hook 'terminfo-mode-hook #'terminfo-mode--connect)

(provide 'terminfo-mode)
;;; terminfo-mode.el ends here
