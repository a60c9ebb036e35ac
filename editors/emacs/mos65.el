;;; mos65.el --- Sources of mos65, with its language server and its debugger -*- lexical-binding: t -*-

;; Version: 0.1.0
;; Package-Requires: ((emacs "27.1"))
;; Keywords: languages, tools

;;; Commentary:

;; A mode for 6502 sources of mos65: colours, comments, the names of a source in imenu, and `M-x compile',
;; which runs `mos65 check'.  In the init file:
;;
;;     (load "PATH/editors/emacs/mos65.el")
;;
;; `M-x eglot' or `M-x lsp' in such a buffer starts the language server.  Where dap-mode is installed,
;; `M-x mos65-debug' debugs the buffer's file, `M-x mos65-step-back' goes a step back, and
;; `M-x mos65-reverse-continue' goes back to the breakpoint before.  Emacs looks for the program on its
;; path; `M-x customize-group RET mos65' has a setting for it.

;;; Code:

(defgroup mos65 nil "Sources of mos65, a 6502 assembler." :group 'languages)

(defcustom mos65-program "mos65"
  "The program: its name, which is looked for on the path, or its whole path."
  :type 'string :group 'mos65)

(defcustom mos65-arguments nil
  "Words for the language server, as (\"--profile\" \"C\")."
  :type '(repeat string) :group 'mos65)

(defcustom mos65-port nil
  "The first of the port's four addresses for faults while typing, as \"0200\", or \"none\".
Where nothing is set, `mos65-arguments' says it.  lsp-mode tells it to the server."
  :type '(choice (const :tag "not set" nil) string) :safe #'string-or-null-p :group 'mos65)

(defcustom mos65-profile nil
  "The processor for faults while typing, as \"C\".
Where nothing is set, `mos65-arguments' says it.  lsp-mode tells it to the server."
  :type '(choice (const :tag "not set" nil) (const "N") (const "C")) :safe #'string-or-null-p :group 'mos65)

(defconst mos65-script (expand-file-name "mos65-dap.sh" (file-name-directory (or load-file-name buffer-file-name)))
  "The script beside this file, with which a run of the debugger can be paused.")

(defun mos65-named-program ()
  "Return the name of the program, or its whole path, where it is one: `~' is the user's folder."
  (if (string-match-p "/" mos65-program) (expand-file-name mos65-program) mos65-program))

(defun mos65-found-program ()
  "Return the path of the program, or say what to do where it is not found."
  (or (executable-find (mos65-named-program))
      (user-error "The program %s is not found; install it, and set mos65-program to its whole path" mos65-program)))

(defconst mos65-mnemonics
  '("ADC" "AND" "ASL" "BCC" "BCS" "BEQ" "BIT" "BMI" "BNE" "BPL" "BRK" "BVC" "BVS" "CLC" "CLD" "CLI" "CLV" "CMP"
    "CPX" "CPY" "DEC" "DEX" "DEY" "EOR" "INC" "INX" "INY" "JMP" "JSR" "LDA" "LDX" "LDY" "LSR" "NOP" "ORA" "PHA"
    "PHP" "PLA" "PLP" "ROL" "ROR" "RTI" "RTS" "SBC" "SEC" "SED" "SEI" "STA" "STX" "STY" "TAX" "TAY" "TSX" "TXA"
    "TXS" "TYA" "BRA" "PHX" "PHY" "PLX" "PLY" "STZ")
  "The mnemonics of profile C.")

(defconst mos65-name-at-start "^[ \t]*\\([A-Za-z][A-Za-z0-9_]*\\)[ \t]*")

(defconst mos65-font-lock-keywords
  `((,(concat mos65-name-at-start ":") 1 font-lock-function-name-face)
    (,(concat mos65-name-at-start "=") 1 font-lock-variable-name-face)
    ("\\*[ \t]*=\\|\\.\\(?:BYTE\\|WORD\\|DBYTE\\|RES\\|END\\)\\_>" . font-lock-preprocessor-face)
    (,(regexp-opt mos65-mnemonics 'symbols) . font-lock-keyword-face)
    ("\\_<[AXY]\\_>" . font-lock-builtin-face)
    ("'[ -~]'" . font-lock-string-face)
    ("\\$[0-9A-Fa-f]+\\|%[01]+\\|\\_<[0-9]+\\_>" . font-lock-constant-face))
  "What is coloured, besides comments and strings.")

(defvar mos65-mode-map
  (let ((map (make-sparse-keymap)))
    (define-key map (kbd "C-c C-d") #'mos65-debug)
    (define-key map (kbd "C-c C-b") #'mos65-step-back)
    (define-key map (kbd "C-c C-r") #'mos65-reverse-continue)
    (define-key map (kbd "C-c C-p") #'mos65-pause)
    map)
  "The keys of `mos65-mode'; dap-mode gives more when it is loaded.")

(defvar mos65-mode-syntax-table
  (let ((table (make-syntax-table)))
    (modify-syntax-entry ?\; "<" table)
    (modify-syntax-entry ?\n ">" table)
    (modify-syntax-entry ?_ "w" table)
    (dolist (it '(?' ?$ ?% ?. ?* ?# ?<  ?> ?! ?& ?| ?^ ?= ?: ?\\)) (modify-syntax-entry it "." table))
    table)
  "What the characters of a source are.")

(defun mos65-set-compile-command ()
  "Have \\[compile] check the file of the buffer."
  (when buffer-file-name
    (setq-local compile-command
                (concat (shell-quote-argument (mos65-named-program)) " check "
                        (shell-quote-argument (file-name-nondirectory buffer-file-name))))))

;;;###autoload
(define-derived-mode mos65-mode prog-mode "mos65"
  "A mode for sources of mos65."
  (setq-local comment-start "; ")
  (setq-local comment-start-skip ";+ *")
  (setq-local font-lock-defaults '(mos65-font-lock-keywords nil t))
  ;; The character between two quotes begins neither a comment nor a string.
  (setq-local syntax-propertize-function (syntax-propertize-rules ("'\\([ -~]\\)'" (1 "."))))
  (setq-local imenu-generic-expression
              `((nil ,(concat mos65-name-at-start ":") 1) ("Numbers" ,(concat mos65-name-at-start "=") 1)))
  (mos65-set-compile-command))

;;;###autoload
(add-to-list 'auto-mode-alist '("\\.a65\\'" . mos65-mode))

;;; The language server

(defun mos65-server (&rest _)
  "Return the words that start the language server."
  (append (list (mos65-found-program) "lsp") mos65-arguments))

(defvar eglot-server-programs)
(with-eval-after-load 'eglot
  (add-to-list 'eglot-server-programs '(mos65-mode . mos65-server)))

(defvar lsp-language-id-configuration)
(declare-function lsp-register-client "lsp-mode")
(declare-function make-lsp-client "lsp-mode")
(declare-function lsp-stdio-connection "lsp-mode")
(declare-function lsp-register-custom-settings "lsp-mode")
(declare-function lsp-configuration-section "lsp-mode")
(with-eval-after-load 'lsp-mode
  (add-to-list 'lsp-language-id-configuration '(mos65-mode . "mos65"))
  (lsp-register-custom-settings '(("mos65.port" mos65-port) ("mos65.profile" mos65-profile)))
  (lsp-register-client
   (make-lsp-client :new-connection (lsp-stdio-connection #'mos65-server (lambda () t))
                    :major-modes '(mos65-mode)
                    :initialization-options (lambda () (lsp-configuration-section "mos65"))
                    :server-id 'mos65)))

;;; The debugger

(declare-function dap-debug "dap-mode")
(declare-function dap-mode "dap-mode")
(declare-function dap-ui-mode "dap-ui")
(declare-function dap-register-debug-provider "dap-mode")
(declare-function dap-register-debug-template "dap-mode")
(declare-function dap--cur-active-session-or-die "dap-mode")
(declare-function dap--debug-session-thread-id "dap-mode")
(declare-function dap--make-request "dap-mode")
(declare-function dap--resp-handler "dap-mode")
(declare-function dap--resume-application "dap-mode")
(declare-function dap--send-message "dap-mode")

(defun mos65-adapter ()
  "Return the words that start the debug adapter: the script, where a shell is."
  (let ((program (mos65-found-program)))
    (if (and (not (eq system-type 'windows-nt)) (file-readable-p mos65-script))
        (list "sh" mos65-script program)
      (list program "dap"))))

(defun mos65-launch (&optional file)
  "Return what dap-mode needs to debug FILE, or the file of the buffer."
  (list :type "mos65" :request "launch" :name "mos65" :program (or file "${file}") :stopOnEntry t))

(defun mos65-need-dap ()
  "Load dap-mode with its marks for lines, or say that it is not installed."
  (unless (and (require 'dap-mode nil t) (require 'dap-ui nil t))
    (user-error "Debugging needs the package dap-mode, which is not installed"))
  (unless (bound-and-true-p dap-mode) (dap-mode 1))
  (unless (bound-and-true-p dap-ui-mode) (dap-ui-mode 1)))

;;;###autoload
(defun mos65-debug ()
  "Debug the file of this buffer; stop before its first instruction."
  (interactive)
  (mos65-need-dap)
  (unless buffer-file-name (user-error "This buffer has no file"))
  (when (buffer-modified-p) (save-buffer))
  (dap-debug (mos65-launch buffer-file-name)))

(defun mos65-go (request)
  "Send REQUEST, which moves the program of the session."
  (mos65-need-dap)
  (let* ((session (dap--cur-active-session-or-die))
         (thread (dap--debug-session-thread-id session)))
    (unless thread (user-error "The program runs; it has to stop before it can go back"))
    (dap--send-message (dap--make-request request (list :threadId thread)) (dap--resp-handler) session)
    (dap--resume-application session)))

;;;###autoload
(defun mos65-step-back ()
  "Undo the last step, with the whole call where that step was one."
  (interactive)
  (mos65-go "stepBack"))

;;;###autoload
(defun mos65-reverse-continue ()
  "Go back to the breakpoint or the watched change before, or to the oldest state."
  (interactive)
  (mos65-go "reverseContinue"))

;;;###autoload
(defun mos65-pause ()
  "Stop the program that runs.  The adapter has one thread, with the number 1."
  (interactive)
  (mos65-need-dap)
  (dap--send-message (dap--make-request "pause" (list :threadId 1)) (dap--resp-handler)
                     (dap--cur-active-session-or-die)))

(with-eval-after-load 'dap-mode
  (dap-register-debug-provider "mos65" (lambda (it) (plist-put it :dap-server-path (mos65-adapter))))
  (dap-register-debug-template "mos65" (mos65-launch))
  (dolist (it '(("C-c C-n" . dap-next) ("C-c C-s" . dap-step-in) ("C-c C-o" . dap-step-out)
                ("C-c C-t" . dap-breakpoint-toggle) ("C-c C-c" . dap-continue)))
    (define-key mos65-mode-map (kbd (car it)) (cdr it))))

(provide 'mos65)

;;; mos65.el ends here
