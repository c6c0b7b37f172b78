;;; fullsub-why.el --- Why a term has its type  -*- lexical-binding: t -*-

;;; Commentary:

;; Asks the server for a derivation, by eglot or lsp-mode, and draws it as a tree in a window of its own.

;;; Code:

(require 'outline)
(require 'fullsub-mode)

(declare-function eglot-current-server "eglot")
(declare-function eglot--TextDocumentPositionParams "eglot")
(declare-function eglot--lsp-position-to-point "eglot")
(declare-function jsonrpc-request "jsonrpc")
(declare-function lsp-request "lsp-mode")
(declare-function lsp--text-document-position-params "lsp-mode")
(declare-function lsp--position-to-point "lsp-mode")

(defconst fullsub-why-width 60
  "So many characters of a term are shown; the rest of a longer one is left out.")

(defun fullsub-why--get (object member)
  "The MEMBER of OBJECT.
Eglot reads an object as a property list, lsp-mode as a hash table."
  (if (hash-table-p object)
      (gethash member object)
    (plist-get object (intern (concat ":" member)))))

(defun fullsub-why--ask ()
  "What the server answers about the term at point."
  (pcase (fullsub--client)
    ('eglot (jsonrpc-request (eglot-current-server) :fullsub/derivation (eglot--TextDocumentPositionParams)
                             ;; Only when it has been told the last changes.
                             :deferred :fullsub/derivation))
    ('lsp-mode (lsp-request "fullsub/derivation" (lsp--text-document-position-params)))
    (_ (user-error "lam_server is not running for this file"))))

(defun fullsub-why--place (range end)
  "The place in the buffer of the END, \"start\" or \"end\", of RANGE."
  (let ((position (fullsub-why--get range end)))
    (if (eq (fullsub--client) 'lsp-mode)
        (lsp--position-to-point position)
      (eglot--lsp-position-to-point position))))

(defun fullsub-why--line (text)
  "TEXT on one line."
  (replace-regexp-in-string "[ \t\r\n]+" " " text))

(defun fullsub-why--uncommented (text)
  "TEXT with a blank in place of each comment.
Comments nest."
  (with-temp-buffer
    (insert text)
    (goto-char (point-min))
    (let ((depth 0) from)
      (while (re-search-forward "/\\*\\|\\*/" nil t)
        (if (eq (char-before) ?*)
            (when (= (setq depth (1+ depth)) 1)
              (setq from (match-beginning 0)))
          (when (= (setq depth (1- depth)) 0)
            (delete-region from (point))
            (insert " ")))))
    (buffer-string)))

(defun fullsub-why--binder (whole first)
  "The `x:T' of a `letrec x:T = ..' with the range WHOLE, or nil for a `let'.
Its first term has the range FIRST."
  (let* ((text (buffer-substring-no-properties (fullsub-why--place whole "start") (fullsub-why--place first "start")))
         (header (fullsub-why--line (fullsub-why--uncommented text))))
    (when (string-match "\\`[ (]*letrec \\(.*?\\) ?=" header)
      (match-string 1 header))))

(defun fullsub-why--first-role (step role)
  "What the term of the first premise of STEP is to a `let', or nil.
It is a cons of `bound', the term that it binds, or of `fixed', what a bound
`fix' is applied to, and the range of the `let'.  ROLE is that of the term of
STEP."
  (pcase (fullsub-why--get step "rule")
    ("T-Let" (cons 'bound (fullsub-why--get step "range")))
    ("T-Sub" role)
    ("T-Fix" (and (eq (car role) 'bound) (cons 'fixed (cdr role))))))

(defun fullsub-why--term (range role)
  "The text of the term with this RANGE and this ROLE, on one line.
What a `letrec x:T = t' is short for is shown in full, `fix (lambda x:T. t)'."
  (let* ((text (fullsub-why--line (buffer-substring-no-properties (fullsub-why--place range "start") (fullsub-why--place range "end"))))
         (binder (and role (fullsub-why--binder (cdr role) range)))
         (function (if binder (format "lambda %s. %s" binder text) text)))
    (truncate-string-to-width (if (and binder (eq (car role) 'bound)) (format "fix (%s)" function) function)
                              fullsub-why-width nil nil "...")))

(defun fullsub-why--context (entries)
  "The ENTRIES of the context as text.
These are the types of the names that the term sees, from the outside in."
  (with-temp-buffer
    (insert "Context:")
    (seq-doseq (entry entries)
      (let ((word (format " %s:%s," (fullsub-why--get entry "name") (or (fullsub-why--get entry "type") " no type"))))
        (when (> (+ (current-column) (length word)) 78)
          (insert "\n   "))
        (insert word)))
    (if (seq-empty-p entries)
        (insert " empty")
      (delete-char -1))
    (concat (buffer-string) "\n\n")))

(defun fullsub-why--tree (steps)
  "The tree of STEPS as text.
Each premise stands below its conclusion, one step further in, and the text of
each step has a property with the place of its term."
  ;; The last step is the root. A list of what is still to be drawn, since a derivation may be deeper than calls can be.
  (let ((waiting (list (list (1- (length steps)) 0 nil)))
        lines)
    (while waiting
      (pcase-let* ((`(,number ,depth ,role) (pop waiting))
                   (step (elt steps number))
                   (range (fullsub-why--get step "range"))
                   (says (if range
                             (concat (fullsub-why--term range role) " : " (fullsub-why--get step "type"))
                           (concat (fullsub-why--get step "lower") " <: " (fullsub-why--get step "upper"))))
                   (line (format "%s%s  %s\n" (make-string (* 2 depth) ?\s) (fullsub-why--get step "rule") says)))
        (push (if range (propertize line 'fullsub-why-place (copy-marker (fullsub-why--place range "start"))) line) lines)
        (let ((first (fullsub-why--first-role step role)))
          (setq waiting (append (seq-map-indexed (lambda (premise at) (list premise (1+ depth) (and (= at 0) first)))
                                                 (fullsub-why--get step "from"))
                                waiting)))))
    (apply #'concat (nreverse lines))))

(defun fullsub-why-go ()
  "Goes to the term of the step at point."
  (interactive)
  (let ((place (get-text-property (line-beginning-position) 'fullsub-why-place)))
    (unless (and place (marker-buffer place))
      (user-error "This line is about no term"))
    (pop-to-buffer (marker-buffer place))
    (goto-char place)))

(defvar fullsub-why-mode-map
  (let ((map (make-sparse-keymap)))
    (define-key map (kbd "TAB") #'outline-toggle-children)
    (define-key map (kbd "RET") #'fullsub-why-go)
    map)
  "Keys of `fullsub-why-mode', with those of `special-mode' behind them.")

(define-derived-mode fullsub-why-mode special-mode "Why"
  "A derivation as a tree, which can be folded."
  :syntax-table fullsub-mode-syntax-table
  (setq-local font-lock-defaults
              `((("^ *\\([ST]-[A-Za-z]+\\)" 1 font-lock-function-name-face) ,@fullsub-mode-font-lock-keywords) nil nil))
  (setq-local outline-regexp " *[ST]-")
  (setq-local outline-level (lambda () (1+ (/ (current-indentation) 2))))
  (setq-local truncate-lines t)
  (outline-minor-mode))

;;;###autoload
(defun fullsub-why ()
  "Draws why the term at point has its type."
  (interactive)
  (let ((answer (fullsub-why--ask)))
    (if (not answer)
        (message "No type is shown here")
      (let ((context (fullsub-why--context (fullsub-why--get answer "context")))
            (tree (fullsub-why--tree (fullsub-why--get answer "steps"))))
        (with-current-buffer (get-buffer-create "*fullsub-why*")
          (fullsub-why-mode)
          (let ((inhibit-read-only t))
            (erase-buffer)
            (insert context tree))
          (pop-to-buffer (current-buffer))
          (goto-char (1+ (length context)))
          (when (> (count-lines (point-min) (point-max)) (window-body-height))
            ;; Where there is no room for both, the window shows the tree without the context.
            (recenter 0)))))))

(provide 'fullsub-why)
;;; fullsub-why.el ends here
