;;; fullsub-mode.el --- Emacs's part for .fsub files  -*- lexical-binding: t -*-

;;; Commentary:

;; The major mode: comments, words, colours, indenting, keys, and the server by eglot or lsp-mode.

;;; Code:

(defgroup fullsub nil
  "The lambda calculus with records and subtyping."
  :group 'languages)

(defcustom fullsub-client 'eglot
  "What talks to the server: `eglot', `lsp-mode', or nil for nothing."
  :type '(choice (const eglot) (const lsp-mode) (const nil)))

(defcustom fullsub-command '("lam_server")
  "The program of the server and the words behind it."
  :type '(repeat string))

(defcustom fullsub-indent 4
  "How far a line stands in that goes on with the command of the line before."
  :type 'integer)

;;; Words, comments and colours

(defvar fullsub-mode-syntax-table
  (let ((table (make-syntax-table)))
    ;; Comments /* */ nest.
    (modify-syntax-entry ?/ ". 14n" table)
    (modify-syntax-entry ?* ". 23n" table)
    ;; A name may hold a quote, so x' is one word.
    (modify-syntax-entry ?' "w" table)
    (modify-syntax-entry ?_ "_" table)
    ;; What Emacs takes for parts of symbols is between names here: x=succ y, Nat->Bool.
    (dolist (sign '(?\" ?- ?+ ?= ?< ?> ?& ?|))
      (modify-syntax-entry sign "." table))
    table)
  "Comments and words of `fullsub-mode'.")

(defvar fullsub-mode-font-lock-keywords
  `((,(regexp-opt '("lambda" "if" "then" "else" "let" "letrec" "in" "fix" "as") 'symbols)
     . font-lock-keyword-face)
    (,(regexp-opt '("succ" "pred" "iszero") 'symbols) . font-lock-builtin-face)
    (,(regexp-opt '("true" "false" "unit") 'symbols) . font-lock-constant-face)
    ("\\_<[0-9]+" . font-lock-constant-face)
    ;; Bool, Nat, Unit and Top are among these.
    ("\\_<[A-Z]\\(?:\\sw\\|\\s_\\)*" . font-lock-type-face))
  "Colours of `fullsub-mode'.")

;;; Indenting

(defun fullsub--back-to (pattern)
  "The last character before point that matches PATTERN outside of comments.
Point goes there; nil where there is none."
  (let (found)
    (while (and (not found) (re-search-backward pattern nil t))
      (let* ((state (save-excursion (syntax-ppss (point))))
             ;; On the slash of the mark that opens a comment, the comment is not open yet.
             (comment (or (and (nth 4 state) (nth 8 state)) (and (looking-at-p "/\\*") (point)))))
        (if comment (goto-char comment) (setq found (char-after)))))
    found))

(defun fullsub--indentation ()
  "The indentation of the line at point.
A command begins in the first column.  A broken line stands one step behind
the line of the bracket around it, or one step in.  The lines of a comment
stand below its words."
  (save-excursion
    (beginning-of-line)
    (let* ((closes (looking-at-p "[ \t]*[)}]"))
           (state (syntax-ppss))
           (closed 0)
           sign indentation)
      (cond
       ((nth 4 state) (goto-char (nth 8 state)) (+ (current-column) 3))
       ((memq (save-excursion (fullsub--back-to "[^ \t\r\n]")) '(nil ?\;)) 0)
       (t
        (while (not indentation)
          (setq sign (fullsub--back-to "[;(){}]"))
          (cond
           ((memq sign '(nil ?\;)) (setq indentation fullsub-indent))
           ((memq sign '(?\) ?})) (setq closed (1+ closed)))
           ((> closed 0) (setq closed (1- closed)))
           (t (setq indentation (+ (current-indentation) (if closes 0 fullsub-indent))))))
        indentation)))))

(defun fullsub-indent-line ()
  "Indents the line at point."
  (let ((indentation (fullsub--indentation)))
    (if (<= (current-column) (current-indentation))
        (indent-line-to indentation)
      (save-excursion (indent-line-to indentation)))))

;;; The server

(defvar eglot-server-programs)
(declare-function eglot-ensure "eglot")
(declare-function eglot-rename "eglot")
(declare-function eglot-managed-p "eglot")
(declare-function lsp-rename "lsp-mode")
(declare-function lsp-describe-thing-at-point "lsp-mode")

(with-eval-after-load 'eglot
  (add-to-list 'eglot-server-programs
               ;; A function, so that the command may be set later.
               '(fullsub-mode . (lambda (&rest _) fullsub-command))))

;; Called by name, since lsp-mode may be missing where this file is compiled.
(with-eval-after-load 'lsp-mode
  (add-to-list (intern "lsp-language-id-configuration") '(fullsub-mode . "fullsub"))
  (funcall (intern "lsp-register-client")
           (funcall (intern "make-lsp-client")
                    :new-connection (funcall (intern "lsp-stdio-connection") (lambda () fullsub-command))
                    :major-modes '(fullsub-mode)
                    :server-id 'lam_server)))

(defun fullsub--client ()
  "The client that manages this buffer: `eglot', `lsp-mode' or nil."
  (cond
   ((and (fboundp 'eglot-managed-p) (eglot-managed-p)) 'eglot)
   ((bound-and-true-p lsp-mode) 'lsp-mode)))

(defun fullsub--forget-type ()
  "Makes lsp-mode ask anew for the type at point.
It would show the one that it has within all of the term that it is about,
but each term within that term has its own."
  (when (boundp 'lsp--hover-saved-bounds)
    (set 'lsp--hover-saved-bounds nil)))

(defun fullsub--start ()
  "Starts the client that `fullsub-client' names.
Says what is missing where it or the server is not installed."
  (let ((start (pcase fullsub-client ('eglot 'eglot-ensure) ('lsp-mode 'lsp)))
        (program (car fullsub-command)))
    (cond
     ((not start))
     ((not (fboundp start))
      (lwarn 'fullsub :warning "%s is not installed, so there are only colours and indenting" fullsub-client))
     ((not (executable-find program t))
      (lwarn 'fullsub :warning "%s is not on the PATH of Emacs, so there are only colours and indenting" program))
     (t (funcall start)))))

(defun fullsub-rename ()
  "Gives the name at point a new one, and all its uses too."
  (interactive)
  (call-interactively (if (eq (fullsub--client) 'lsp-mode) #'lsp-rename #'eglot-rename)))

(defun fullsub-type ()
  "Shows the type of the term at point in a window of its own."
  (interactive)
  (call-interactively (if (eq (fullsub--client) 'lsp-mode) #'lsp-describe-thing-at-point #'eldoc-doc-buffer)))

;;; The mode

(autoload 'fullsub-why "fullsub-why" "Draws why the term at point has its type." t)

(declare-function flymake-goto-next-error "flymake")
(declare-function flymake-goto-prev-error "flymake")
(declare-function flymake-show-buffer-diagnostics "flymake")

(defun fullsub--of-checker (flymake flycheck)
  "Calls the command FLYMAKE, or FLYCHECK where lsp-mode shows faults by that."
  (call-interactively (if (bound-and-true-p flycheck-mode) flycheck flymake)))

(defun fullsub-next-diagnostic ()
  "Goes to the next diagnostic."
  (interactive)
  (fullsub--of-checker #'flymake-goto-next-error 'flycheck-next-error))

(defun fullsub-previous-diagnostic ()
  "Goes to the diagnostic before point."
  (interactive)
  (fullsub--of-checker #'flymake-goto-prev-error 'flycheck-previous-error))

(defun fullsub-list-diagnostics ()
  "Lists all diagnostics of this buffer."
  (interactive)
  (fullsub--of-checker #'flymake-show-buffer-diagnostics 'flycheck-list-errors))

(defvar fullsub-mode-map
  (let ((map (make-sparse-keymap)))
    (define-key map (kbd "C-c C-w") #'fullsub-why)
    (define-key map (kbd "C-c C-r") #'fullsub-rename)
    (define-key map (kbd "C-c C-t") #'fullsub-type)
    (define-key map (kbd "C-c C-n") #'fullsub-next-diagnostic)
    (define-key map (kbd "C-c C-p") #'fullsub-previous-diagnostic)
    (define-key map (kbd "C-c C-l") #'fullsub-list-diagnostics)
    ;; Most terminals cannot send Emacs's own key for this.
    (define-key map (kbd "C-c ;") #'comment-line)
    map)
  "Keys of `fullsub-mode'.")

;;;###autoload
(define-derived-mode fullsub-mode prog-mode "Fullsub"
  "Major mode for the lambda calculus with records and subtyping."
  (setq-local comment-start "/* ")
  (setq-local comment-end " */")
  (setq-local comment-start-skip "/\\*+[ \t]*")
  (setq-local comment-end-skip "[ \t]*\\*+/")
  (setq-local comment-use-syntax t)
  ;; Comments nest, so one within another needs no other marks.
  (setq-local comment-quote-nested nil)
  (setq-local indent-line-function #'fullsub-indent-line)
  (setq-local indent-tabs-mode nil)
  (setq-local electric-indent-chars (append '(?\) ?}) electric-indent-chars))
  (add-hook 'post-command-hook #'fullsub--forget-type nil t)
  ;; Case matters: Nat is a type and nat a name.
  (setq-local font-lock-defaults '(fullsub-mode-font-lock-keywords nil nil)))

(add-hook 'fullsub-mode-hook #'fullsub--start)

(provide 'fullsub-mode)
;;; fullsub-mode.el ends here
